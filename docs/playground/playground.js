// The page and its worker, in one file. The worker has the program: `sblog_page` of playground.wasm.
"use strict";

// The stored scenarios, handlers and images, which `build` writes here.
// EXAMPLES BEGIN
const EXAMPLES = {
 "scenarios": {
  "examples/scenarios/crash.scenario": "# Three messages, and a crash that takes the state away.\nprocess a examples/adder.sbi\ninput a 1\ninput a 2\ninput a 3\ndrive 100\ncrash a\nrecover a\ndrive 100\n",
  "examples/scenarios/any_length.scenario": "# A handler of form 2 gives back messages of no bytes and of two.\nprocess a examples/scenarios/mirror.sbi\nbytes a -\nbytes a 0102\ndrive 100\n",
  "examples/scenarios/bank.scenario": "# Ordinary C, of form 3: a deposit, a transfer, and one that the account doesn't cover, behind a crash.\nprocess bank examples/handlers/bank.sbi\nbytes bank 010000000000000005000000000000006400000000000000\nbytes bank 03000000050000007f000000000000002800000000000000\ndrive 100\ncrash bank\nrecover bank\ndrive 100\nbytes bank 020000007f00000000000000000000003200000000000000\ndrive 100\n",
  "examples/scenarios/bucket.scenario": "# Ordinary C, of form 3: a token bucket lets through what its client has tokens for, and has them behind a crash.\nprocess bucket examples/handlers/bucket.sbi\nbytes bucket 030000000000000014000000000000001e00000000000000\nbytes bucket 030000000000000014000000000000005000000000000000\ndrive 100\ncrash bucket\nrecover bucket\ndrive 100\nbytes bucket 030000000000000014000000000000000a00000000000000\ndrive 100\n",
  "examples/scenarios/checkpoint.scenario": "# A checkpoint lets the senders drop what it covers; only what came later is replayed.\nprocess a examples/relay.sbi\nprocess b examples/scenarios/doubler.sbi\ninput a 1\ninput a 2\ndrive 100\ncheckpoint b\ntrim b\ntrim outside\ninput a 3\ndrive 100\ncrash b\nrecover b\ndrive 100\ncrash a\nrecover a\ndrive 100\n",
  "examples/scenarios/dedup.scenario": "# Ordinary C, of form 3: what a sender numbered before is dropped, also after a crash.\nprocess dedup examples/handlers/dedup.sbi\nbytes dedup 00000000000000006869\nbytes dedup 00000000000000006869\nbytes dedup 0100000000000000796f75\ndrive 100\ncrash dedup\nrecover dedup\ndrive 100\nbytes dedup 01000000000000006c617465\nbytes dedup 020000000000000021\ndrive 100\n",
  "examples/scenarios/gossip.scenario": "# Four processes in ordinary C tell each other the newest version. One is down while the next one comes.\nprocess a examples/handlers/gossip.sbi\nprocess b examples/handlers/gossip.sbi\nprocess c examples/handlers/gossip.sbi\nprocess d examples/handlers/gossip.sbi\nbytes a 020000000000000007000000000000000000000000000000\ndrive 100\ncrash c\nbytes a 0c0000000000000009000000000000000000000000000000\ndrive 100\nrecover c\ndrive 100\n",
  "examples/scenarios/hundred.scenario": "# A hundred inputs, for workers: 50 that front relays to back, and 50 for back itself.\nprocess front examples/relay.sbi\nprocess back examples/adder.sbi\ninput front 1\ninput back 2\ninput front 3\ninput back 4\ninput front 5\ninput back 6\ninput front 7\ninput back 8\ninput front 9\ninput back 10\ninput front 11\ninput back 12\ninput front 13\ninput back 14\ninput front 15\ninput back 16\ninput front 17\ninput back 18\ninput front 19\ninput back 20\ninput front 21\ninput back 22\ninput front 23\ninput back 24\ninput front 25\ninput back 26\ninput front 27\ninput back 28\ninput front 29\ninput back 30\ninput front 31\ninput back 32\ninput front 33\ninput back 34\ninput front 35\ninput back 36\ninput front 37\ninput back 38\ninput front 39\ninput back 40\ninput front 41\ninput back 42\ninput front 43\ninput back 44\ninput front 45\ninput back 46\ninput front 47\ninput back 48\ninput front 49\ninput back 50\ninput front 51\ninput back 52\ninput front 53\ninput back 54\ninput front 55\ninput back 56\ninput front 57\ninput back 58\ninput front 59\ninput back 60\ninput front 61\ninput back 62\ninput front 63\ninput back 64\ninput front 65\ninput back 66\ninput front 67\ninput back 68\ninput front 69\ninput back 70\ninput front 71\ninput back 72\ninput front 73\ninput back 74\ninput front 75\ninput back 76\ninput front 77\ninput back 78\ninput front 79\ninput back 80\ninput front 81\ninput back 82\ninput front 83\ninput back 84\ninput front 85\ninput back 86\ninput front 87\ninput back 88\ninput front 89\ninput back 90\ninput front 91\ninput back 92\ninput front 93\ninput back 94\ninput front 95\ninput back 96\ninput front 97\ninput back 98\ninput front 99\ninput back 100\n",
  "examples/scenarios/late_result.scenario": "# A process crashes while its handler runs; the result comes back too late.\nprocess a examples/adder.sbi\ninput a 5\ntransmit outside a 1\narrive 0\ncrash a\nfinish a\nrecover a\ndrive 100\n",
  "examples/scenarios/lease.scenario": "# Ordinary C, of form 3: b gets the lease, c is told who has it, also by a process that has come back, and gets it when it ended.\nprocess lease examples/handlers/lease.sbi\nprocess b examples/scenarios/ask.sbi\nprocess c examples/scenarios/ask.sbi\nbytes b 0a000000000000006400000000000000\ndrive 100\ncrash lease\nrecover lease\ndrive 100\nbytes c 32000000000000000a00000000000000\ndrive 100\nbytes c 6e000000000000000a00000000000000\ndrive 100\n",
  "examples/scenarios/lost_number.scenario": "# Four messages are received, and the number of the third gets lost. Then the receiver crashes.\nprocess a examples/adder.sbi\ninput a 1\ninput a 2\ninput a 4\ninput a 8\ndrive 10\ntransmit outside a 3\narrive 0\nfinish a\nlose 0\ntransmit outside a 4\narrive 0\nfinish a\narrive 0\narrive 0\ncrash a\nrecover a\ndrive 100\n",
  "examples/scenarios/one_message.scenario": "# One message, from the outside into the state of a process.\nprocess a examples/adder.sbi\ninput a 5\ndrive 10\n",
  "examples/scenarios/relay.scenario": "# A message goes through two processes and out; each of them crashes once.\nprocess a examples/relay.sbi\nprocess b examples/echo.sbi\ninput a 7\ndrive 100\ncrash a\nrecover a\ndrive 100\ncrash b\nrecover b\ndrive 100\n",
  "examples/scenarios/ring.scenario": "# Ordinary C, of form 3: 22 words go into a ring of 21 places, with a crash between them; the oldest two come out.\nprocess ring examples/handlers/ring.sbi\ninput ring 100\ninput ring 101\ninput ring 102\ninput ring 103\ninput ring 104\ninput ring 105\ninput ring 106\ninput ring 107\ninput ring 108\ninput ring 109\ninput ring 110\ninput ring 111\ndrive 100\ncrash ring\nrecover ring\ndrive 100\ninput ring 112\ninput ring 113\ninput ring 114\ninput ring 115\ninput ring 116\ninput ring 117\ninput ring 118\ninput ring 119\ninput ring 120\ninput ring 121\ndrive 100\n",
  "examples/scenarios/store.scenario": "# Ordinary C, of form 3: a value is stored, and read behind a crash.\nprocess store examples/handlers/store.sbi\nbytes store 01000000630000003930000000000000\ndrive 100\ncrash store\nrecover store\ndrive 100\nbytes store 0000000063000000\ndrive 100\n",
  "examples/scenarios/table.scenario": "# Ordinary C, of form 3: two keys go into a hash table; one is found behind a crash, and a third isn't there.\nprocess table examples/handlers/table.sbi\nbytes table 07000000000000004600000000000000\nbytes table 08000000000000005000000000000000\ndrive 100\ncrash table\nrecover table\ndrive 100\nbytes table 0700000000000000\nbytes table 0900000000000000\ndrive 100\n",
  "examples/scenarios/two_failures.scenario": "# Two processes are down at once: what each of them kept for the other is gone.\nprocess a examples/relay.sbi\nprocess b examples/scenarios/doubler.sbi\ninput a 7\ndrive 100\ninput b 8\ndrive 100\ncrash a\ncrash b\nrecover b\nalone b\ndrive 100\nalone a\ndrive 100\n",
  "examples/scenarios/two_phase.scenario": "# Ordinary C, of form 3: three processes vote for a transaction; the first crashes behind two votes, and all are told.\nprocess first examples/handlers/two_phase.sbi\nprocess b examples/scenarios/ask.sbi\nprocess c examples/scenarios/ask.sbi\nprocess d examples/scenarios/ask.sbi\nbytes first 07000000000000004d00000000000000\ndrive 100\nbytes b 07000000010000000000000000000000\nbytes c 07000000010000000000000000000000\ndrive 100\ncrash first\nrecover first\ndrive 100\nbytes d 07000000010000000000000000000000\ndrive 100\n",
  "examples/scenarios/votes.scenario": "# Assembler text and ordinary C side by side: eight relays vote for candidate 4, and the counter crashes after five votes.\nprocess a examples/relay.sbi\nprocess votes examples/handlers/votes.sbi\nprocess c examples/relay.sbi\nprocess d examples/relay.sbi\nprocess e examples/relay.sbi\nprocess f examples/relay.sbi\nprocess g examples/relay.sbi\nprocess h examples/relay.sbi\nprocess i examples/relay.sbi\ninput a 4\ninput a 5\ninput c 4\ninput d 4\ninput e 10\ninput e 4\ninput f 4\ndrive 1000\ncrash votes\nrecover votes\ndrive 1000\ninput a 4\ninput g 4\ninput h 4\ninput i 4\ndrive 1000\n"
 },
 "handlers": {
  "examples/adder.s": "# adds the word of each message to the state\nldxdw r3, [r1+0]\nldxdw r4, [r2+0]\nadd r4, r3\nstxdw [r2+0], r4\nmov r0, 0\nexit\n",
  "examples/echo.s": "# gives each message as an output\ncall 2\nexit\n",
  "examples/greatest.s": "# keeps the greatest word that it was sent\nldxdw r3, [r1+0]\nldxdw r4, [r2+0]\njle r3, r4, +1\nstxdw [r2+0], r3\nmov r0, 0\nexit\n",
  "examples/relay.s": "# sends each message on to process 2\nmov r2, r1\nmov r1, 2\ncall 1\nexit\n",
  "examples/scenarios/ask.s": "# sends to process 1 what the outside hands in, and gives what a process sends as an output\nmov r6, r1\ncall 4\njeq r0, 0, +3\nmov r1, r6\ncall 2\nexit\nmov r2, r6\nmov r1, 1\ncall 1\nexit\n",
  "examples/scenarios/doubler.s": "# doubles its state, adds the word of each message, and gives the sum as an output\nldxdw r3, [r1+0]\nldxdw r4, [r2+0]\nlsh r4, 1\nadd r4, r3\nstxdw [r2+0], r4\nstxdw [r10-64], r4\nmov r1, r10\nadd r1, -64\ncall 2\nexit\n",
  "examples/scenarios/mirror.s": "# gives each message as an output, whatever its length\nmov r2, r3\ncall 6\nmov r0, 0\nexit\n",
  "examples/scenarios/sized_adder.s": "# adds the word of each message that has one to the state\njlt r3, 8, +4\nldxdw r4, [r1+0]\nldxdw r5, [r2+0]\nadd r5, r4\nstxdw [r2+0], r5\nmov r0, 0\nexit\n"
 },
 "images": {
  "examples/adder.sbi": "U0JJMQgABgB5EwAAAAAAAHkkAAAAAAAADzQAAAAAAAB7QgAAAAAAALcAAAAAAAAAlQAAAAAAAAA=",
  "examples/echo.sbi": "U0JJMQAAAgCFAAAAAgAAAJUAAAAAAAAA",
  "examples/greatest.sbi": "U0JJMQgABgB5EwAAAAAAAHkkAAAAAAAAvUMBAAAAAAB7MgAAAAAAALcAAAAAAAAAlQAAAAAAAAA=",
  "examples/handlers/bank.sbi": "U0JJMwAENQC3BAAAAAAAAHtK+P8AAAAAtwQAAAEAAAB7SvD/AAAAAKUDKgAYAAAAYRQEAAAAAAAmBCgAfwAAAGETCAAAAAAAJgMmAH8AAABhFQAAAAAAABYFEgADAAAAFgUIAAIAAABWBSIAAQAAAGcDAAADAAAADzIAAAAAAAB5ExAAAAAAAHkhAAAAAAAADzEAAAAAAAB7EgAAAAAAAAUAGAAAAAAAZwQAAAMAAAAPQgAAAAAAAHkjAAAAAAAAeREQAAAAAACtExYAAAAAAB8TAAAAAAAAezIAAAAAAAB5IQAAAAAAAAUADwAAAAAAZwQAAAMAAAC/JQAAAAAAAA9FAAAAAAAAeVQAAAAAAAB5EBAAAAAAAK0EDAAAAAAAHwQAAAAAAAB7RQAAAAAAAGcDAAADAAAADzIAAAAAAAB5ERAAAAAAAHkjAAAAAAAADxMAAAAAAAB7MgAAAAAAAHlRAAAAAAAAtwIAAAAAAAB7KvD/AAAAAHsa+P8AAAAAv6EAAAAAAAAHAQAA8P///7cCAAAQAAAAhQAAAAYAAAC3AAAAAAAAAJUAAAAAAAAA",
  "examples/handlers/bucket.sbi": "U0JJMwACGQC3AAAAAQAAAHkUAAAAAAAAJQQVAB8AAABnBAAABAAAAA9CAAAAAAAAeSQAAAAAAAB5IAgAAAAAAHkVCAAAAAAAvQUHAAAAAAB7UggAAAAAAB8FAAAAAAAAJwUAAAUAAAAPVAAAAAAAAKUEAQBkAAAAtwQAAGQAAAB7QgAAAAAAALcAAAACAAAAeRUQAAAAAACtVAUAAAAAAB9UAAAAAAAAe0IAAAAAAAC/MgAAAAAAAIUAAAAGAAAAtwAAAAAAAACVAAAAAAAAAA==",
  "examples/handlers/dedup.sbi": "U0JJM4AAFQC/NgAAAAAAAL8oAAAAAAAAvxcAAAAAAACFAAAABAAAAL8BAAAAAAAAtwAAAAEAAAClBg0ACAAAAGcBAAADAAAADxgAAAAAAAB5ggAAAAAAAHlxAAAAAAAArSEIAAAAAAAHAQAAAQAAAHsYAAAAAAAABwcAAAgAAAAHBgAA+P///79xAAAAAAAAv2IAAAAAAACFAAAABgAAALcAAAAAAAAAlQAAAAAAAAA=",
  "examples/handlers/gossip.sbi": "U0JJMxgAIwC3AAAAAQAAAKUDIAAYAAAAeSMAAAAAAAB5FAAAAAAAAL00HQAAAAAAeRMIAAAAAAB7MggAAAAAAHkTAAAAAAAAezIAAAAAAAB5ExAAAAAAAHsyEAAAAAAABwMAAAEAAAB7MhAAAAAAAHkWAAAAAAAAGAEAABV8Sn8AAAAAuXk3ni8WAAAAAAAAvycAAAAAAACFAAAAAwAAAK8GAAAAAAAAv2EAAAAAAACXAQAACgAAAAcBAAABAAAAv3IAAAAAAAC3AwAAGAAAAIUAAAAFAAAAdwYAACAAAACUBgAACgAAAAQGAAABAAAAv2EAAAAAAAC/cgAAAAAAALcDAAAYAAAAhQAAAAUAAAC3AAAAAAAAAJUAAAAAAAAA",
  "examples/handlers/lease.sbi": "U0JJMxgAIwC/JgAAAAAAAL8XAAAAAAAAhQAAAAQAAAC3AQAAAAAAAHsa6P8AAAAAeWIAAAAAAAB5cQgAAAAAAKUBAgDpAwAAeWQIAAAAAAAFABAAAAAAAB0CBAAAAAAAeWQIAAAAAAB5cwAAAAAAAK1DDAAAAAAABQAEAAAAAAB5YhAAAAAAAAcCAAABAAAAeyYQAAAAAAB5cwAAAAAAAHsGAAAAAAAADxMAAAAAAAB7NggAAAAAALcBAAABAAAAexro/wAAAAC/NAAAAAAAAL8CAAAAAAAAe0r4/wAAAAB7KvD/AAAAAL+iAAAAAAAABwIAAOj///+/AQAAAAAAALcDAAAYAAAAhQAAAAUAAAC3AAAAAAAAAJUAAAAAAAAA",
  "examples/handlers/ring.sbi": "U0JJM7AAIwC/EwAAAAAAALcAAAABAAAAYSQAAAAAAAAmBB4AFAAAAL9FAAAAAAAAZwUAAAMAAAC/IQAAAAAAAAcBAAAIAAAAvxAAAAAAAAAPUAAAAAAAAHkzAAAAAAAAezAAAAAAAAAEBAAAAQAAALQGAAAAAAAAFgQBABUAAAC8RgAAAAAAAGNiAAAAAAAAYSMEAAAAAAC3AAAAAAAAAF42DgAAAAAAtwAAAAIAAAAmBgwAFAAAAL8nAAAAAAAAv2IAAAAAAABnAgAAAwAAAA8hAAAAAAAAtwIAAAgAAACFAAAABgAAALQBAAAAAAAAFgYCABQAAAAEBgAAAQAAALxhAAAAAAAAYxcEAAAAAAC3AAAAAAAAAJUAAAAAAAAA",
  "examples/handlers/store.sbi": "U0JJMyADGwBhEwQAAAAAALcEAAAAAAAAe0r4/wAAAAC0BAAAAAAAAGNK9P8AAAAAYzrw/wAAAACmAwMAZAAAALQBAAABAAAAYxr0/wAAAAAFAAsAAAAAAGEUAAAAAAAAFgQEAAEAAABnAwAAAwAAAA8yAAAAAAAAeSEAAAAAAAAFAAQAAAAAAGcDAAADAAAADzIAAAAAAAB5EQgAAAAAAHsSAAAAAAAAexr4/wAAAAC/oQAAAAAAAAcBAADw////twIAABAAAACFAAAABgAAALcAAAAAAAAAlQAAAAAAAAA=",
  "examples/handlers/table.sbi": "U0JJMwACWAB5FQAAAAAAABgEAAAVfEp/AAAAALl5N56/UAAAAAAAAC9AAAAAAAAAdwAAADsAAAC/BgAAAAAAAGcGAAAEAAAAvyQAAAAAAAAPZAAAAAAAAHlGAAAAAAAAFQZBAAAAAAAdVkAAAAAAALwGAAAAAAAABAYAAAEAAABXBgAAHwAAAGcGAAAEAAAAvyQAAAAAAAAPZAAAAAAAAHlGAAAAAAAAFQY4AAAAAAAdVjcAAAAAALwGAAAAAAAABAYAAAIAAABXBgAAHwAAAGcGAAAEAAAAvyQAAAAAAAAPZAAAAAAAAHlGAAAAAAAAFQYvAAAAAAAdVi4AAAAAALwGAAAAAAAABAYAAAMAAABXBgAAHwAAAGcGAAAEAAAAvyQAAAAAAAAPZAAAAAAAAHlGAAAAAAAAFQYmAAAAAAAdViUAAAAAALwGAAAAAAAABAYAAAQAAABXBgAAHwAAAGcGAAAEAAAAvyQAAAAAAAAPZAAAAAAAAHlGAAAAAAAAFQYdAAAAAAAdVhwAAAAAALwGAAAAAAAABAYAAAUAAABXBgAAHwAAAGcGAAAEAAAAvyQAAAAAAAAPZAAAAAAAAHlGAAAAAAAAFQYUAAAAAAAdVhMAAAAAALwGAAAAAAAABAYAAAYAAABXBgAAHwAAAGcGAAAEAAAAvyQAAAAAAAAPZAAAAAAAAHlGAAAAAAAAFQYLAAAAAAAdVgoAAAAAAAQAAAAHAAAAVwAAAB8AAABnAAAABAAAAA8CAAAAAAAAeSYAAAAAAAC/JAAAAAAAABUGAwAAAAAAtwAAAAEAAAC/JAAAAAAAAF1WCgAAAAAAJQMFAA8AAAAHBAAACAAAAL9BAAAAAAAAtwIAAAgAAACFAAAABgAAAAUABAAAAAAAe1QAAAAAAAB5EQgAAAAAAHsUCAAAAAAAtwAAAAAAAACVAAAAAAAAAA==",
  "examples/handlers/two_phase.sbi": "U0JJM4AAOQC3AAAAAQAAAKUDNgAQAAAAYRMAAAAAAAAmAzQABwAAAL8WAAAAAAAAZwMAAAQAAAAPMgAAAAAAAL8nAAAAAAAAhQAAAAQAAABVAAUAAAAAALcBAAAcAAAAexcAAAAAAAB5YQgAAAAAAHsXCAAAAAAABQAoAAAAAAC0AwAAAQAAAGwDAAAAAAAAv2IAAAAAAABhJAQAAAAAAL9xAAAAAAAAFgQDAAAAAABhFAQAAAAAAEw0AAAAAAAAY0EEAAAAAACkAwAA/////2EUAAAAAAAAXDQAAAAAAABjQQAAAAAAALcAAAAAAAAAVgQaAAAAAABhIgAAAAAAAHsq8P8AAAAAYRIEAAAAAAC0AQAAAQAAABYCAQAcAAAAtAEAAAAAAAB7Gvj/AAAAAL+mAAAAAAAABwYAAPD///+3AQAAAgAAAL9iAAAAAAAAtwMAABAAAACFAAAABQAAALcBAAADAAAAv2IAAAAAAAC3AwAAEAAAAIUAAAAFAAAAtwEAAAQAAAC/YgAAAAAAALcDAAAQAAAAhQAAAAUAAAC/cQAAAAAAAAcBAAAIAAAAtwIAAAgAAACFAAAABgAAALcAAAAAAAAAlQAAAAAAAAA=",
  "examples/handlers/votes.sbi": "U0JJM2AAIQC/JgAAAAAAAHkXAAAAAAAAe3r4/wAAAACFAAAABAAAAL8BAAAAAAAAtwAAAAEAAAAlBxkACQAAALcCAAABAAAAbxIAAAAAAAB5YQAAAAAAAL8TAAAAAAAAXyMAAAAAAABVAxMAAAAAAE8hAAAAAAAAexYAAAAAAABnBwAAAwAAAL9hAAAAAAAAD3EAAAAAAAB5EggAAAAAAAcCAAABAAAAeyEIAAAAAAC3AAAAAAAAAKUCCQAIAAAAeWFYAAAAAABVAQcAAAAAALcBAAABAAAAexZYAAAAAAC/oQAAAAAAAAcBAAD4////twIAAAgAAACFAAAABgAAALcAAAAAAAAAlQAAAAAAAAA=",
  "examples/relay.sbi": "U0JJMQAABAC/EgAAAAAAALcBAAACAAAAhQAAAAEAAACVAAAAAAAAAA==",
  "examples/scenarios/ask.sbi": "U0JJMQAACgC/FgAAAAAAAIUAAAAEAAAAFQADAAAAAAC/YQAAAAAAAIUAAAACAAAAlQAAAAAAAAC/YgAAAAAAALcBAAABAAAAhQAAAAEAAACVAAAAAAAAAA==",
  "examples/scenarios/doubler.sbi": "U0JJMQgACgB5EwAAAAAAAHkkAAAAAAAAZwQAAAEAAAAPNAAAAAAAAHtCAAAAAAAAe0rA/wAAAAC/oQAAAAAAAAcBAADA////hQAAAAIAAACVAAAAAAAAAA==",
  "examples/scenarios/mirror.sbi": "U0JJMgAABAC/MgAAAAAAAIUAAAAGAAAAtwAAAAAAAACVAAAAAAAAAA==",
  "examples/scenarios/sized_adder.sbi": "U0JJMggABwClAwQACAAAAHkUAAAAAAAAeSUAAAAAAAAPRQAAAAAAAHtSAAAAAAAAtwAAAAAAAACVAAAAAAAAAA=="
 }
};
// EXAMPLES END

const utf8 = new TextEncoder();
const text = (bytes) => new TextDecoder().decode(bytes);

// ---- the program, one instance a command line

/// Carries out a command line over files by their names: `{status, printed, told, written}`.
function sblog(module, words, files) {
  const { exports } = new WebAssembly.Instance(module, {});
  const place = (bytes) => {
    const at = exports.page_take(BigInt(Math.max(bytes.length, 1)));
    if (!at) throw new Error("no memory");
    new Uint8Array(exports.memory.buffer).set(bytes, Number(at));
    return at;
  };
  const slice = (bytes, count = bytes.length) => [place(bytes), BigInt(count)];
  // Parts one behind the other, and the length of each.
  const row = (parts) => {
    const all = new Uint8Array(parts.reduce((sum, it) => sum + it.length, 0));
    parts.reduce((at, it) => (all.set(it, at), at + it.length), 0);
    const lengths = new Uint8Array(Uint32Array.from(parts, (it) => it.length).buffer);
    return [...slice(all), ...slice(lengths, parts.length)];
  };
  const texts = (them) => them.map((it) => utf8.encode(it));
  const given = [...row(texts(words)), ...row(texts(Object.keys(files))), ...row(Object.values(files))];
  const sizes = place(new Uint8Array(24));
  for (let room = 1 << 18; ; ) {
    const out = place(new Uint8Array(room));
    const code = exports.sblog_page(...given, out, BigInt(room), sizes);
    const memory = exports.memory.buffer;
    const [printed, told, written] = [...new BigUint64Array(memory, Number(sizes), 3)].map(Number);
    const whole = printed + told + written;
    if (code === 18) {
      room = whole;
      continue;
    }
    if (code === 16) throw new Error("the call does not fit");
    if (code === 17) return { status: 5, printed: "", told: "memory\n", written: new Uint8Array(0) };
    const bytes = new Uint8Array(memory, Number(out), whole).slice();
    return {
      status: code,
      printed: text(bytes.subarray(0, printed)),
      told: text(bytes.subarray(printed, printed + told)),
      written: bytes.subarray(printed + told),
    };
  }
}

function work() {
  let module;
  onmessage = ({ data }) => {
    if (data.module) {
      module = data.module;
      return;
    }
    const started = performance.now();
    const answers = data.calls.map((words) => sblog(module, words, data.files));
    postMessage({ answers, milliseconds: performance.now() - started });
  };
}

// ---- the page

function page() {
  const $ = (id) => document.getElementById(id);
  const LIMIT = 3000;
  let module;
  let worker;
  let waiting = null;
  const pending = new Map();

  const start = () => {
    worker = new Worker(document.currentScript?.src || "playground.js");
    worker.postMessage({ module });
    worker.onmessage = ({ data }) => finish(data);
    worker.onerror = (e) => finish({ error: e.message });
  };
  const finish = (answer) => {
    const { done, timer } = waiting;
    clearTimeout(timer);
    waiting = null;
    if (answer.error) {
      worker.terminate();
      start();
    }
    done(answer);
    step();
  };
  // One question at a time; of those of a kind that come meanwhile the last one counts.
  const ask = (kind, calls, files, done) => {
    pending.set(kind, [calls, files, done]);
    step();
  };
  const step = () => {
    const [kind] = pending.keys();
    if (waiting || !kind) return;
    const [calls, files, done] = pending.get(kind);
    pending.delete(kind);
    const timer = setTimeout(() => finish({ error: `stopped after ${LIMIT / 1000} seconds` }), LIMIT);
    waiting = { done, timer };
    worker.postMessage({ calls, files });
  };

  const images = {};
  for (const [name, it] of Object.entries(EXAMPLES.images)) images[name] = Uint8Array.from(atob(it), (c) => c.charCodeAt(0));

  const number = (list, count, faulty) => {
    list.replaceChildren(...Array.from({ length: count }, (_, i) => {
      const item = document.createElement("li");
      item.textContent = i + 1;
      item.classList.toggle("faulty", i + 1 === faulty);
      return item;
    }));
  };
  const fit = (area) => {
    area.rows = Math.max(4, area.value.split("\n").length);
    area.style.minWidth = `${Math.max(...area.value.split("\n").map((it) => it.length)) + 2}ch`;
  };

  // The columns of the picture from left to right, each with its line of the scenario, and its entry, if it isn't of a refused order.
  let columns = [];
  const read_columns = () => {
    const svg = $("picture").querySelector("svg");
    const lines = new Map([...(svg?.querySelectorAll("text.place[y='30']") ?? [])].map((it) => [it.getAttribute("x"), Number(it.textContent)]));
    let entries = 0;
    columns = [...(svg?.querySelectorAll("line.column, line.no") ?? [])].map((it) => ({
      element: it,
      x: Number(it.getAttribute("x1")),
      line: lines.get(it.getAttribute("x1")),
      entry: it.classList.contains("column") ? ++entries : 0,
    }));
  };
  const light = (column) => {
    for (const it of document.querySelectorAll(".lit")) it.classList.remove("lit");
    $("picture").querySelector("#lit")?.remove();
    if (!column) return;
    if (column.entry) $("trace").querySelector(`[data-entry="${column.entry}"]`)?.classList.add("lit");
    $("gutter").children[column.line - 1]?.classList.add("lit");
    const band = document.createElementNS("http://www.w3.org/2000/svg", "rect");
    const height = $("picture").querySelector("svg").getAttribute("height");
    for (const [key, value] of Object.entries({ id: "lit", x: column.x - 12, y: 0, width: 24, height, style: "fill:#ffe9a8;fill-opacity:.6" })) band.setAttribute(key, value);
    columns[0].element.before(band);
  };

  const show = (answer, lines) => {
    document.documentElement.dataset.shown = String(Number(document.documentElement.dataset.shown || 0) + 1);
    if (answer.error) {
      $("state").textContent = "";
      $("answer").innerHTML = "";
      $("answer").append(Object.assign(document.createElement("span"), { className: "bad", textContent: answer.error }));
      return;
    }
    const [run, draw] = answer.answers;
    const entries = run.printed.split("\n").filter((it) => /^\d{6} /.test(it));
    const others = run.printed.split("\n").filter((it) => it && !/^\d{6} /.test(it));
    $("answer").replaceChildren(Object.assign(document.createElement("span"), {
      className: run.status ? "bad" : "good",
      textContent: run.status ? `${run.told}status ${run.status}` : `status 0, ${entries.length} entries`,
    }));
    $("picture").innerHTML = draw.status ? "" : text(draw.written);
    read_columns();
    $("trace").replaceChildren(...entries.map((it, i) => {
      const line = document.createElement("div");
      line.textContent = it;
      line.dataset.entry = i + 1;
      return line;
    }));
    $("report").textContent = others.join("\n");
    const fault = /scenario refused at line (\d+)/.exec(run.told);
    number($("gutter"), lines, fault ? Number(fault[1]) : 0);
    $("state").textContent = `${answer.milliseconds.toFixed(1)} ms for ${answer.answers.length} command lines`;
  };

  const play = () => {
    const value = $("scenario").value;
    fit($("scenario"));
    const lines = value.split("\n");
    // A file that is written is there before, empty: the proof says of it what is in it then.
    const files = { ...images, "the.scenario": utf8.encode(value), "the.svg": new Uint8Array(0) };
    const calls = [["run", "the.scenario"], ["draw", "the.scenario", "the.svg"]];
    ask("scenario", calls, files, (answer) => show(answer, lines.length));
  };

  // The handler: its image, and the image's listing.
  const assemble = (then) => {
    const source = $("source").value;
    fit($("source"));
    const words = ["asm", "the.s", "the.sbi", "--state", $("length").value];
    ask("handler", [words], { "the.s": utf8.encode(source), "the.sbi": new Uint8Array(0) }, (answer) => {
      if (answer.error) return;
      const [asm] = answer.answers;
      const fault = /at line (\d+)/.exec(asm.told);
      number($("slots"), source.split("\n").length, fault ? Number(fault[1]) : 0);
      if (asm.status) {
        $("listing").textContent = asm.told;
        return;
      }
      images[$("place").value] = asm.written;
      ask("listing", [["explain", "the.sbi"]], { "the.sbi": asm.written }, (listing) => {
        if (listing.error) return;
        $("listing").textContent = listing.answers[0].printed || listing.answers[0].told;
        then();
      });
    });
  };

  const link = () => {
    const value = JSON.stringify([$("scenario").value, $("source").value, $("place").value, $("length").value]);
    $("link").href = "#" + btoa(String.fromCharCode(...utf8.encode(value)));
  };
  const choose = (list, all, area, after) => {
    list.append(...Object.keys(all).map((it) => new Option(it)));
    list.onchange = () => {
      area.value = all[list.value];
      after();
    };
  };

  choose($("scenarios"), EXAMPLES.scenarios, $("scenario"), () => (link(), play()));
  choose($("handlers"), EXAMPLES.handlers, $("source"), () => (link(), assemble(play)));
  $("scenario").oninput = () => (link(), play());
  for (const it of ["source", "place", "length"]) $(it).oninput = () => (link(), assemble(play));
  $("trace").onmouseover = (e) => light(columns.find((it) => it.entry === Number(e.target.dataset.entry)));
  $("picture").onmousemove = (e) => {
    const at = e.clientX - $("picture").getBoundingClientRect().left + $("picture").scrollLeft;
    light(columns.find((it) => Math.abs(it.x - at) <= 12));
  };
  $("gutter").onmouseover = (e) => light(columns.find((it) => it.line === Number(e.target.textContent)));

  const begin = async () => {
    const response = await fetch("playground.wasm");
    const bytes = await response.arrayBuffer();
    module = await WebAssembly.compile(bytes);
    start();
    let given;
    try {
      given = JSON.parse(text(Uint8Array.from(atob(location.hash.slice(1)), (c) => c.charCodeAt(0))));
    } catch {
      given = [EXAMPLES.scenarios[$("scenarios").value], EXAMPLES.handlers[$("handlers").value], "mine.sbi", "8"];
    }
    [$("scenario").value, $("source").value, $("place").value, $("length").value] = given;
    link();
    assemble(() => {});
    play();
  };
  begin().catch((e) => ($("state").textContent = `this browser cannot run the program: ${e.message}`));
}

if (typeof document === "undefined") work();
else page();
