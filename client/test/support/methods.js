/* Run by folder_storage.test.js: writes numbers into a folder until it is killed. */

import { folderStorage } from '../../src/folder_storage.js';

const { methods } = folderStorage(process.argv[2])._keeperFor({});

async function main() {
  const [[, last] = [null, '0']] = await methods.read('number');
  for (let number = Number(last) + 1; ; number += 1) {
    await methods.write([['number', `${number}`], ['same', `${number}`], [`k${number % 7}`, 'x'.repeat(number % 500)]]);
    console.log(number);
  }
}

main().catch((error) => {
  console.log(/another process/.test(error.message) ? 'refused' : error);
  setInterval(() => {}, 1000);
});
