"""What several test suites share: the server, WebSocket frames, random edits, the examples of the documents, packages."""
