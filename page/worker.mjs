// Runs the compiler beside the page, so that a program without an end can be stopped.

import { run } from "./host.mjs";

const SOURCE = "program.pas";
const CERTIFICATE = "program.cert";
// So many bytes of output are shown.
const MOST = 1 << 20;

const compiled = fetch("pcom.wasm")
  .then((response) => response.arrayBuffer())
  .then((bytes) => WebAssembly.compile(bytes));

onmessage = async ({ data: { text, input, go } }) => {
  const encoder = new TextEncoder();
  const files = new Map([[SOURCE, encoder.encode(text)]]);
  const words = ["pcom", "--write-cert", CERTIFICATE, ...(go ? ["--go"] : []), "--", SOURCE];
  let room = MOST;
  const write = (stream, piece) => {
    if (piece.length > room) return false;
    room -= piece.length;
    postMessage({ stream, piece });
    return true;
  };
  try {
    const status = await run(await compiled, words, files, encoder.encode(input), write);
    postMessage({ status, certificate: new TextDecoder().decode(files.get(CERTIFICATE) ?? new Uint8Array()) });
  } catch (error) {
    const isDeep = error instanceof RangeError;
    postMessage({ fault: isDeep ? "the program nests too deep for the stack of this browser" : String(error) });
  }
};
