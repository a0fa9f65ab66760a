// Runs the compiler of the page on the cases that standard input lists, and writes what each did, as JSON.

import fs from "fs";

const [folder] = process.argv.slice(2);
const { run } = await import(`${folder}/host.mjs`);
const module = await WebAssembly.compile(fs.readFileSync(`${folder}/pcom.wasm`));
const ran = [];
for (const { words, source, input } of JSON.parse(fs.readFileSync(0, "utf8"))) {
  const files = new Map([["source.pas", Buffer.from(source, "base64")]]);
  const pieces = { 1: [], 2: [] };
  const write = (stream, piece) => pieces[stream].push(Buffer.from(piece)) > 0;
  const status = await run(module, ["pcom", ...words], files, Buffer.from(input, "base64"), write);
  const [output, messages] = [1, 2].map((stream) => Buffer.concat(pieces[stream]).toString("base64"));
  ran.push({ output, messages, status });
}
process.stdout.write(JSON.stringify(ran));
