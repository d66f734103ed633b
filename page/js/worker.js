// The side of the page that computes: it opens files, holds the proved program, and reads the replies into columns. It
// runs in a worker of its own, so that the page stays alive; where a browser starts none, in the page itself.

import { opened } from "./files.js";
import { historiesOf } from "./histories.js";
import { Lines } from "./lines.js";
import { NOT_GOOD, Program, REFUSED } from "./program.js";
import { refusalIn } from "./refusals.js";
import { readReplies } from "./replies.js";
import { alignedRows } from "./rows.js";
import { judgedText, sectionOf } from "./traces.js";

const MOST_SAID = 1_000; // bytes of what stands in the status; a verdict or a refusal is far shorter

// The columns of the replies that are shown, or null where there are none.
function repliesOf({ command, judged }, status, written, told) {
  const isJudged = command === "check" && status !== REFUSED;
  if (!isJudged && !(status === 0 && ["run", "set"].includes(command))) return null;
  const read = readReplies(isJudged ? new Lines(judged) : written, command === "set", (part) => told({ part }));
  return { ...read, ...historiesOf(read) };
}

// The rows in which a trace of so many lines and what answers it stand, or null where they have nothing to do with each
// other.
function rowsOf(count, replies, refused) {
  if (replies !== null) return alignedRows(count, replies.of);
  return refused === undefined ? null : alignedRows(count, Uint32Array.of(refused));
}

// Calls the program. What it answered is `told` before its text is read, which may take long, or fail.
function ran(program, task, told) {
  const { command, words, trace, judged, count } = task;
  const began = performance.now();
  const { status, text, memory } = program.call(words, command === "check" ? judgedText(trace, judged) : trace);
  const ms = performance.now() - began;
  const said = new TextDecoder().decode(text.subarray(0, MOST_SAID));
  told({ answer: { status, ms, memory, said, length: text.length } });
  const written = new Lines(text);
  const replies = repliesOf(task, status, written, told);
  const rows = rowsOf(count, replies, status === REFUSED ? refusalIn(said)?.line : undefined);
  const isBad = command === "check" && status === NOT_GOOD;
  const section = isBad ? sectionOf(new Lines(trace), Number(/[0-9]+/.exec(said))) : null;
  return { written, replies, rows, section };
}

// What a message takes with it in place of a copy.
function buffersOf(value) {
  if (ArrayBuffer.isView(value)) return [value.buffer];
  return value !== null && typeof value === "object" ? Object.values(value).flatMap(buffersOf) : [];
}

// Answers messages by `post`: `module` is compiled; a job opens a file, or calls the program.
export function server(post) {
  let program = null;
  return async ({ module, job, file, task }) => {
    try {
      if (module) {
        program = new Program(module);
        post({ ready: true }, []);
        return;
      }
      const outcome = file ? await opened(file) : ran(program, task, (told) => post({ job, told }, []));
      post({ job, outcome }, [...new Set(buffersOf(outcome))]);
    } catch (error) {
      post({ job, error: String(error?.message ?? error) }, []);
    }
  };
}

export function serveWorker() {
  const answer = server((message, buffers) => postMessage(message, buffers));
  addEventListener("message", ({ data }) => answer(data));
}
