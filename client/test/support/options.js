/* Options of each test: one that hangs fails. TIMEOUT is its time in milliseconds, for a busy machine by default. */

export const OPTIONS = { timeout: Number(process.env.TIMEOUT || 60000) };
