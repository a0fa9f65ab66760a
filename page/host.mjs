// What the compiler's module is given by the page: memory, words, files held in a map, and arithmetic of 128 bits.

const PAGE = 65536;
const LEAST_BLOCK = 32;
const MASK = (1n << 64n) - 1n;
const [STDIN, STDOUT, STDERR] = [0, 1, 2];
// Error numbers of the system, and flags of open.
const [NOT_THERE, BAD_FILE, EXISTS, INVALID, NO_SPACE] = [2, 9, 17, 22, 28];
const [WRITES, CREATES, EXCLUSIVE, TRUNCATES] = [0o3, 0o100, 0o200, 0o1000];
const [REGULAR_FILE, OF_ALL_FIELDS] = [0o100644, 0x7ff];
// The bytes in which a processor of the native program says what it can.
const FEATURES = 32;

// The memory that the module asks for: blocks whose sizes are powers of two, with a list of free ones for each size.
class Heap {
  constructor(memory, begin) {
    this.memory = memory;
    this.top = begin;
    this.free = new Map();
    this.sizes = new Map();
  }

  static blockSize(size) {
    let block = LEAST_BLOCK;
    while (block < size) block *= 2;
    return block;
  }

  // The address of a new block; 0 where there is no memory left.
  take(size, alignment) {
    const block = Heap.blockSize(Math.max(size, alignment));
    const free = this.free.get(block);
    if (free?.length) return free.pop();
    const step = Math.max(16, Math.min(block, 4096));
    const address = Math.ceil(this.top / step) * step;
    if (!this.reach(address + block)) return 0;
    this.top = address + block;
    this.sizes.set(address, block);
    return address;
  }

  give(address) {
    const block = this.sizes.get(address);
    if (!block) return;
    if (!this.free.has(block)) this.free.set(block, []);
    this.free.get(block).push(address);
  }

  reach(end) {
    const missing = end - this.memory.buffer.byteLength;
    if (missing <= 0) return true;
    const pages = Math.ceil(missing / PAGE) + 256;
    // Some hosts take a number of pages of 64 bits, and some a plain one.
    return this.grow(BigInt(pages)) || this.grow(pages);
  }

  grow(pages) {
    try {
      this.memory.grow(pages);
      return true;
    } catch {
      return false;
    }
  }
}

// One run of the module. `files` maps paths to bytes and keeps what is written; `write` gets pieces of output.
class Host {
  constructor(words, files, input, write) {
    this.words = words;
    this.files = files;
    this.input = input;
    this.write = write;
    this.open = new Map();
    this.next = STDERR + 1;
    this.taken = 0;
    this.errno = 0;
  }

  begin(instance) {
    this.memory = instance.exports.memory;
    this.heap = new Heap(this.memory, Number(instance.exports.__heap_base.value));
    const words = this.words.map((word) => this.put(new TextEncoder().encode(`${word}\0`)));
    const list = this.heap.take(8 * (words.length + 1), 16);
    [...words, 0].forEach((word, number) => this.view().setBigUint64(list + 8 * number, BigInt(word), true));
    return instance.exports.main(this.words.length, BigInt(list));
  }

  bytes() {
    return new Uint8Array(this.memory.buffer);
  }

  view() {
    return new DataView(this.memory.buffer);
  }

  put(bytes) {
    const address = this.heap.take(bytes.length, 16);
    this.bytes().set(bytes, address);
    return address;
  }

  text(address) {
    const bytes = this.bytes();
    return new TextDecoder().decode(bytes.slice(address, bytes.indexOf(0, address)));
  }

  putPair(address, low, high) {
    this.view().setBigUint64(address, low & MASK, true);
    this.view().setBigUint64(address + 8, high & MASK, true);
  }

  putWide(address, value) {
    this.putPair(Number(address), value, value >> 64n);
  }

  // An address, with whether there is one.
  putBlock(result, address) {
    this.putPair(Number(result), address ? 1n : 0n, BigInt(address));
  }

  fail(number) {
    this.errno = number;
    return -1;
  }

  openFile(path, flags) {
    const writes = flags & WRITES;
    const isThere = this.files.has(path);
    if (!isThere && !(flags & CREATES)) return this.fail(NOT_THERE);
    if (isThere && flags & CREATES && flags & EXCLUSIVE) return this.fail(EXISTS);
    if (writes && (!isThere || flags & TRUNCATES)) this.files.set(path, new Uint8Array());
    this.open.set(this.next, { path, at: 0 });
    return this.next++;
  }

  read(number, address, size) {
    const file = this.open.get(number);
    if (number !== STDIN && !file) return BigInt(this.fail(BAD_FILE));
    const data = file ? this.files.get(file.path) : this.input;
    const at = file ? file.at : this.taken;
    const piece = data.subarray(at, at + size);
    this.bytes().set(piece, address);
    if (file) file.at += piece.length;
    else this.taken += piece.length;
    return BigInt(piece.length);
  }

  writeTo(number, address, size) {
    const piece = this.bytes().slice(address, address + size);
    const file = this.open.get(number);
    if (number === STDOUT || number === STDERR) {
      if (!this.write(number, piece)) return BigInt(this.fail(NO_SPACE));
    } else if (file) {
      const old = this.files.get(file.path);
      const whole = new Uint8Array(Math.max(old.length, file.at + size));
      whole.set(old);
      whole.set(piece, file.at);
      this.files.set(file.path, whole);
      file.at += size;
    } else {
      return BigInt(this.fail(BAD_FILE));
    }
    return BigInt(size);
  }

  // What a file is, as statx tells it: that all fields are there, a plain file, and its size.
  status(number, path, address) {
    const file = this.open.get(number);
    const name = file ? file.path : path;
    if (!this.files.has(name)) return this.fail(NOT_THERE);
    this.bytes().fill(0, address, address + 256);
    this.view().setUint32(address, OF_ALL_FIELDS, true);
    this.view().setUint32(address + 4, 4096, true);
    this.view().setUint16(address + 28, REGULAR_FILE, true);
    this.view().setBigUint64(address + 40, BigInt(this.files.get(name).length), true);
    return 0;
  }

  rename(from, to) {
    if (!this.files.has(from)) return this.fail(NOT_THERE);
    this.files.set(to, this.files.get(from));
    this.files.delete(from);
    for (const file of this.open.values()) if (file.path === from) file.path = to;
    return 0;
  }

  truncate(number, size) {
    const file = this.open.get(number);
    if (!file) return this.fail(BAD_FILE);
    const whole = new Uint8Array(size);
    whole.set(this.files.get(file.path).subarray(0, size));
    this.files.set(file.path, whole);
    return 0;
  }

  argument(number, address, size) {
    const word = this.words[number];
    if (word === undefined) return -1n;
    const bytes = new TextEncoder().encode(word);
    if (bytes.length > size) return -2n;
    this.bytes().set(bytes, address);
    return BigInt(bytes.length);
  }

  moved(result, address, kept, size, alignment) {
    const old = this.heap.sizes.get(address);
    if (old >= size) return this.putBlock(result, address);
    const block = this.heap.take(size, alignment);
    if (block) {
      this.bytes().copyWithin(block, address, address + kept);
      this.heap.give(address);
    }
    return this.putBlock(result, block);
  }

  // The functions that the module imports, by their names.
  calls() {
    const wide = (low, high) => (low & MASK) | ((high & MASK) << 64n);
    return {
      rattle_alloc: (result, size, alignment) =>
        this.putBlock(result, this.heap.take(Number(size), Number(alignment) || 16)),
      rattle_realloc: (result, address, kept, size, alignment) =>
        this.moved(result, Number(address), Number(kept), Number(size), Number(alignment) || 16),
      rattle_dealloc: (address) => this.heap.give(Number(address)),
      __multi3: (result, a, b, c, d) => this.putWide(result, wide(a, b) * wide(c, d)),
      __ashlti3: (result, low, high, by) => this.putWide(result, wide(low, high) << BigInt(by)),
      __lshrti3: (result, low, high, by) => this.putWide(result, wide(low, high) >> BigInt(by)),
      rattle_errno: () => this.errno,
      rattle_set_errno: (number) => {
        this.errno = number;
      },
      rattle_arg: (number, address, size) => this.argument(Number(number), Number(address), Number(size)),
      __sysv_signal: () => 0n,
      // The proved program asks for the processor that it was compiled for; here it is compiled for none of them.
      __x86_get_cpuid_feature_leaf: () => BigInt(this.put(new Uint8Array(FEATURES).fill(0xff))),
      open: (path, flags) => this.openFile(this.text(Number(path)), Number(flags)),
      close: (number) => (this.open.delete(number) ? 0 : this.fail(BAD_FILE)),
      lseek: () => -1n,
      readlink: () => BigInt(this.fail(INVALID)),
      rename: (from, to) => this.rename(this.text(Number(from)), this.text(Number(to))),
      unlink: (path) => (this.files.delete(this.text(Number(path))) ? 0 : this.fail(NOT_THERE)),
      ftruncate: (number, size) => this.truncate(number, Number(size)),
      fchown: () => 0,
      fchmod: () => 0,
      fsync: () => 0,
      fdatasync: () => 0,
      flock: () => 0,
      statx: (number, path, flags, mask, address) => this.status(number, this.text(Number(path)), Number(address)),
      read: (number, address, size) => this.read(number, Number(address), Number(size)),
      write: (number, address, size) => this.writeTo(number, Number(address), Number(size)),
    };
  }
}

// Runs the compiler with these words and gives its status.
export async function run(module, words, files, input, write) {
  const host = new Host(words, files, input, write);
  const calls = host.calls();
  const env = {};
  for (const { name } of WebAssembly.Module.imports(module)) {
    env[name] = calls[name] ?? (() => { throw new Error(`the page doesn't have ${name}`); });
  }
  return host.begin(await WebAssembly.instantiate(module, { env }));
}
