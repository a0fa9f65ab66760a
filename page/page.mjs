// The page: an editor, the runs, and what they tell.

const PLACED = /^(\d+):(\d+): (possible error|error|input|refused|certificate refused):? (.+)$/;
const PLAIN = /^(refused|certificate refused|machine fault) (\S+)$/;
const TOKEN = /[A-Za-z]\w*|\d+|'(?:[^'\n]|'')*'|:=|<>|<=|>=|\.\.|\S/y;
const STDOUT = 1;

const part = (name) => document.getElementById(name);
const json = async (path) => (await fetch(path)).json();

// What a line of the compiler says: its kind, its name, and its place where it has one.
function read(line) {
  const placed = PLACED.exec(line);
  if (placed) return { line, row: Number(placed[1]), column: Number(placed[2]), kind: placed[3], name: placed[4] };
  const plain = PLAIN.exec(line);
  if (plain) return { line, kind: plain[1], name: plain[2] };
  return { line, kind: "", name: line.replace(/^(cannot \w+) .*/, "$1") };
}

// Where a place is in the text, whose lines count bytes as columns, and where its token ends.
function range(text, { row, column }) {
  const lines = text.split("\n");
  const before = lines.slice(0, row - 1).reduce((sum, line) => sum + line.length + 1, 0);
  const bytes = new TextEncoder().encode(lines[row - 1] ?? "");
  const start = before + new TextDecoder().decode(bytes.slice(0, column - 1)).length;
  TOKEN.lastIndex = start;
  return [start, TOKEN.exec(text)?.[0].length + start || start + 1];
}

function element(name, text, options = {}) {
  return Object.assign(document.createElement(name), { textContent: text }, options);
}

// Shows the text behind the editor once more, with the told places marked.
function mark(text, told) {
  const marks = told.filter(({ row }) => row).map((one) => [...range(text, one), one]);
  marks.sort(([one], [other]) => one - other);
  const parts = [];
  let at = 0;
  for (const [start, end, { kind }] of marks) {
    if (start < at) continue;
    const className = kind === "possible error" ? "told" : "fault";
    parts.push(text.slice(at, start), element("mark", text.slice(start, end), { className }));
    at = end;
  }
  part("marks").replaceChildren(...parts, `${text.slice(at)}\n`);
}

// Lists what is told, each with its sentences where its name comes first.
function list(told, sentences) {
  const known = new Set();
  const items = told.map((one) => {
    const item = element("li", "");
    const line = element(one.row ? "a" : "span", one.line, { href: "#" });
    line.onclick = (event) => {
      event.preventDefault();
      if (one.row) show(one);
    };
    item.append(line);
    if (!known.has(one.name) && sentences[one.name]) item.append(element("p", sentences[one.name]));
    known.add(one.name);
    return item;
  });
  part("told").replaceChildren(...items);
}

function show(place) {
  const text = part("text");
  text.focus();
  text.setSelectionRange(...range(text.value, place));
}

class Page {
  constructor(sentences, examples) {
    this.sentences = sentences;
    this.examples = examples;
  }

  choose(name) {
    const example = this.examples.find((one) => one.name === name);
    if (!example) return;
    part("example").value = name;
    part("text").value = example.text;
    part("input").value = example.input;
    this.clear();
  }

  clear() {
    this.stop();
    part("output").textContent = part("status").textContent = part("certificate").textContent = "";
    part("told").replaceChildren();
    mark(part("text").value, []);
  }

  start(go) {
    this.clear();
    this.decoder = [new TextDecoder(), new TextDecoder()];
    this.messages = "";
    this.worker ??= this.newWorker();
    this.isRunning = true;
    part("stop").disabled = false;
    part("status").textContent = "running ..";
    this.worker.postMessage({ text: part("text").value, input: part("input").value, go });
  }

  newWorker() {
    const worker = new Worker("worker.mjs", { type: "module" });
    worker.onmessage = ({ data }) => this.take(data);
    worker.onerror = ({ message }) => this.take({ fault: message });
    return worker;
  }

  // Stops a run by the worker's end; the next run begins another.
  stop() {
    if (!this.isRunning) return;
    this.worker.terminate();
    this.worker = undefined;
    this.end("stopped");
  }

  end(words) {
    this.isRunning = false;
    part("stop").disabled = true;
    part("status").textContent = words;
  }

  take({ stream, piece, status, certificate, fault }) {
    if (stream) {
      const text = this.decoder[stream - 1].decode(piece, { stream: true });
      if (stream === STDOUT) part("output").textContent += text;
      else this.messages += text;
      return;
    }
    const told = this.messages.split("\n").filter(Boolean).map(read);
    list(told, this.sentences);
    mark(part("text").value, told);
    part("certificate").textContent = certificate ?? "";
    this.end(fault ?? `status ${status}${told.length ? "" : ": no error of the language can happen"}`);
    if (fault) this.worker = undefined;
  }
}

async function main() {
  const [about, sentences, examples] = await Promise.all(["about.json", "sentences.json", "examples.json"].map(json));
  part("about").textContent = about.words;
  part("example").replaceChildren(...examples.map(({ name }) => element("option", name)));
  const page = new Page(sentences, examples);
  part("example").onchange = () => page.choose(part("example").value);
  part("run").onclick = () => page.start(true);
  part("check").onclick = () => page.start(false);
  part("stop").onclick = () => page.stop();
  part("text").oninput = () => mark(part("text").value, []);
  part("text").onscroll = () => {
    part("marks").scrollTop = part("text").scrollTop;
    part("marks").scrollLeft = part("text").scrollLeft;
  };
  const chosen = new URLSearchParams(location.search);
  page.choose(chosen.get("example") ?? examples[0].name);
  if (chosen.has("run")) page.start(true);
}

await main();
