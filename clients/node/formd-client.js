// A client of `formd`: a process for each database file, and the ids spread over the files. Node's standard library alone.
//
//     const pool = new Pool('formd', 'order.json', ['a.db', 'b.db']);
//     const reply = await pool.ask({ do: 'get', id: 'order-1' });
//     await pool.stop();
//
// clients/README.md says what a caller may rely on, and which file a line goes to; formd-client.d.ts has the types.
'use strict';
const { spawn } = require('node:child_process');
const { createHash, randomUUID } = require('node:crypto');
const { performance } = require('node:perf_hooks');

/** There is no reply. */
class Failure extends Error {
  constructor(message, options) {
    super(message, options);
    this.name = this.constructor.name;
  }
}

/** The line never went to formd: it has changed nothing. */
class NotSent extends Failure {}

/** The line went to formd and its reply didn't come: it was made, whole, or it wasn't. */
class OutcomeUnknown extends Failure {}

/** The id of a `create` has a record: nothing was put. */
class Exists extends Failure {}

// All are seconds, but for the queue, which counts lines, and the largest, which counts bytes.
const LIMITS = {
  deadline: 10, // from the first byte of a line that is sent to the last of its reply
  opening: 60, // until a process that is started has opened its file and answers
  patience: 10, // until a line's turn comes
  queue: 64, // lines that wait for their turn at one file
  largest: 2 ** 28, // bytes of a reply; a process that says more is ended
  pause: 0.05, // before a process is started anew; it doubles with each that ends without an answer
  longestPause: 5,
};

// Stands in front of a whole number that is carried as a text through JSON.parse and JSON.stringify. Nobody outside knows it.
const MARK = `${randomUUID()}:`;
const TEXT_OR_LONG_NUMBER = /"[^"\\]*(?:\\.[^"\\]*)*"|[\d.eE+-]{16,}/g;
const WHOLE = /^-?\d+$/;
const MARKED = new RegExp(`"${MARK}(-?\\d+)"`, 'g');

/** JSON.parse, where a whole number that a Number can't hold is a BigInt. */
function parse(text) {
  if (!/\d{16}/.test(text)) return JSON.parse(text);
  const marked = text.replace(TEXT_OR_LONG_NUMBER, (token) => {
    return WHOLE.test(token) && !Number.isSafeInteger(Number(token)) ? `"${MARK}${token}"` : token;
  });
  return JSON.parse(marked, (_, value) => {
    return typeof value === 'string' && value.startsWith(MARK) ? BigInt(value.slice(MARK.length)) : value;
  });
}

/** JSON.stringify, where a BigInt is a whole number. */
function stringify(value) {
  return JSON.stringify(value, (_, held) => (typeof held === 'bigint' ? MARK + held : held)).replace(MARKED, '$1');
}

// Seconds after which a wait looks whether a stop has begun.
const LOOK = 0.25;
const now = () => performance.now() / 1000;
const sleep = (seconds) => new Promise((resolve) => setTimeout(resolve, seconds * 1000));

/** Whether a promise is settled within some seconds. */
async function within(promise, seconds) {
  let timer;
  const late = new Promise((resolve) => {
    timer = setTimeout(resolve, seconds * 1000, false);
  });
  const isSettled = await Promise.race([promise.then(() => true), late]);
  clearTimeout(timer);
  return isSettled;
}

/** Whether a reply can be that of the command, as far as it shows. */
function belongs(reply, command) {
  return 'error' in reply || (reply.ok === command.do && (reply.id === undefined || reply.id === command.id));
}

/** One process over one file, which is given one line at a time. */
class Shard {
  constructor(words, limits) {
    this.words = words;
    this.limits = limits;
    this.jobs = [];
    this.work = null;
    this.child = null;
    this.before = Promise.resolve();
    this.failures = 0;
    this.restUntil = 0;
    this.stopBy = null;
  }

  /** Gives steps their turn: no other line comes between theirs. */
  submit(steps) {
    return new Promise((resolve, reject) => {
      if (this.stopBy !== null) throw new NotSent('the pool is stopped');
      if (this.jobs.length >= this.limits.queue) throw new NotSent(`${this.limits.queue} lines wait already`);
      const job = { steps, resolve, reject };
      job.timer = setTimeout(() => {
        this.jobs.splice(this.jobs.indexOf(job), 1);
        reject(new NotSent(`its turn didn't come within ${this.limits.patience} s`));
      }, this.limits.patience * 1000);
      this.jobs.push(job);
      this.work ??= this.#work();
    });
  }

  /** Takes no more lines, has those answered that wait, as far as the seconds go, and closes the input: the exit status, null where no process was running. */
  async stop(seconds) {
    this.stopBy = Math.min(this.stopBy ?? Infinity, now() + seconds);
    const cut = setTimeout(() => this.child?.over(new Error('the pool is stopped')), seconds * 1000);
    await this.work;
    clearTimeout(cut);
    const { child } = this;
    if (!child) return null;
    this.child = null;
    child.over = () => {};
    child.stdin.end();
    if (!(await within(child.ended, Math.max(1, this.stopBy - now())))) child.kill('SIGKILL');
    return child.ended;
  }

  async #work() {
    for (let job; (job = this.jobs.shift()); ) {
      clearTimeout(job.timer);
      try {
        job.resolve(await job.steps((...asked) => this.#exchange(...asked)));
      } catch (why) {
        job.reject(why);
      }
    }
    this.work = null;
  }

  /** A line in, a line out. Whatever else happens between the two ends the process. */
  async #exchange(command, line, deadline) {
    await this.#makeReady();
    try {
      const reply = parse(await this.#talk(line, deadline));
      if (!belongs(reply, command)) throw new Error('the reply to another line');
      this.failures = 0;
      return reply;
    } catch (why) {
      this.#drop();
      throw new OutcomeUnknown(why.message, { cause: why });
    }
  }

  #talk(line, seconds) {
    const { child } = this;
    return new Promise((resolve, reject) => {
      const over = (why, reply) => {
        clearTimeout(timer);
        child.over = () => this.#dropIf(child);
        if (why) reject(why);
        else resolve(reply);
      };
      // what has come already, while others held the processor, is seen before the deadline is
      const late = () => child.over === over && over(new Error('no reply within its deadline'));
      const timer = setTimeout(() => setImmediate(late), this.#left(now() + seconds) * 1000);
      if (child.why) over(child.why);
      else {
        child.over = over;
        child.stdin.write(line);
      }
    });
  }

  /** Seconds until a moment, or until the end of a stop, if that is earlier: a stop may begin meanwhile. */
  #left(until) {
    return Math.min(until, this.stopBy ?? Infinity) - now();
  }

  /** Has a process that answers, one that is started anew where need be. */
  async #makeReady() {
    if (this.stopBy !== null && now() > this.stopBy) throw new NotSent('the pool is stopped');
    if (this.child && (this.child.exitCode !== null || this.child.signalCode !== null)) this.#drop();
    if (this.child) return;
    while (this.stopBy === null && this.#left(this.restUntil) > 0) await sleep(Math.min(LOOK, this.#left(this.restUntil)));
    const until = now() + this.limits.opening;
    try {
      while (!(await within(this.before, Math.min(LOOK, this.#left(until))))) {
        if (this.#left(until) <= 0) throw new Error("the process before it doesn't end");
      }
      this.#start();
      await this.#talk('{}\n', this.limits.opening);
    } catch (why) {
      this.#drop();
      throw new NotSent(why.message, { cause: why });
    }
  }

  #start() {
    const [program, ...words] = this.words;
    // a session of its own: what a terminal sends to the group of processes is for its parent alone
    const child = spawn(program, words, { stdio: ['pipe', 'pipe', 'inherit'], detached: true });
    this.child = child;
    child.over = () => this.#dropIf(child);
    child.ended = new Promise((resolve) => {
      child.on('exit', (status, signal) => resolve(status ?? signal));
      child.on('error', () => child.pid === undefined && resolve(null));
    });
    const end = (why) => {
      child.why = why;
      child.over(why);
    };
    child.on('error', end);
    child.on('close', (status, signal) => end(new Error(`formd has ended: ${signal ?? `status ${status}`}`)));
    child.stdin.on('error', () => {}); // 'close' tells it
    const { largest } = this.limits;
    let parts = [];
    let length = 0;
    child.stdout.on('data', (bytes) => {
      parts.push(bytes);
      length += bytes.length;
      if (length <= largest && bytes[bytes.length - 1] !== 10) return;
      let told = [new Error(`a reply of more than ${largest} bytes`)];
      try {
        if (length <= largest) told = [null, Buffer.concat(parts).toString()];
      } catch (why) {
        told = [why]; // a text that is too long for Node
      }
      parts = [];
      length = 0;
      child.over(...told);
    });
  }

  /** Of a process that has ended, or says what nobody has asked. */
  #dropIf(child) {
    if (this.child === child) this.#drop();
  }

  /** Kills the process. The next one has to wait, longer each time that none has answered in between. */
  #drop() {
    const { child } = this;
    this.restUntil = now() + Math.min(this.limits.pause * 2 ** this.failures, this.limits.longestPause);
    this.failures += 1;
    if (!child) return;
    this.child = null;
    child.over = () => {};
    this.before = child.ended;
    child.kill('SIGKILL');
    child.stdin?.destroy();
    child.stdout?.destroy();
  }
}

/** Shards over files. Their order and number are part of the data: never change them over files that have records. */
class Pool {
  /** The program is a path, or words such as `['prlimit', '--as=2147483648', 'formd']`; `words` go behind those of `serve`. */
  constructor(program, declarations, databases, { words = [], ...limits } = {}) {
    this.limits = { ...LIMITS, ...limits };
    const front = [...[program].flat(), 'serve', '--declarations', declarations, '--database'];
    this.shards = databases.map((database) => new Shard([...front, database, ...words], this.limits));
  }

  /** The number of the file of an id: the first four bytes of its SHA-256, as a number, modulo the number of files. What is no text goes to the first one. */
  shardOf(id) {
    return typeof id === 'string' ? createHash('sha256').update(id).digest().readUInt32BE(0) % this.shards.length : 0;
  }

  /** Where a line goes that goes to one file. */
  #shard(command) {
    if (command.do === 'list' || command.do === 'redeclare') throw new RangeError(`a ${command.do} goes to every file: ask, or redeclare`);
    if (command.do === 'checkvalue') return this.shards.reduce((best, shard) => (shard.jobs.length < best.jobs.length ? shard : best));
    if (command.do !== 'batch') return this.shards[this.shardOf(command.id)];
    const parts = Array.isArray(command.parts) ? command.parts : [];
    const named = new Set(parts.map((part) => this.shardOf(part?.id)));
    if (named.size > 1) throw new RangeError('the parts of a batch belong to more than one file: make a batch for each');
    return this.shards[[...named][0] ?? 0];
  }

  #submit(shard, command, deadline = this.limits.deadline) {
    const line = stringify(command) + '\n';
    return shard.submit((exchange) => exchange(command, line, deadline));
  }

  /** The reply to a command; of a list that of all files, merged. NotSent or OutcomeUnknown where there is none. */
  async ask(command, deadline) {
    if (command.do !== 'list') return this.#submit(this.#shard(command), command, deadline);
    const replies = await Promise.all(this.shards.map((shard) => this.#submit(shard, command, deadline)));
    const refused = replies.find((reply) => 'error' in reply);
    if (refused) return refused;
    const ids = replies.flatMap((reply) => reply.ids).sort((a, b) => (a < b ? -1 : 1));
    return { ids: ids.slice(0, Number(command.limit ?? 100)), ok: 'list' };
  }

  /** The reply to a put whose id has no record; Exists where it has one. Both are looked at and done in one turn. */
  async create(put, deadline = this.limits.deadline) {
    const get = { do: 'get', id: put.id };
    const [getLine, putLine] = [get, put].map((command) => stringify(command) + '\n');
    return this.#shard(put).submit(async (exchange) => {
      const found = await exchange(get, getLine, deadline).catch((why) => {
        throw why instanceof OutcomeUnknown ? new NotSent(`the get before it: ${why.message}`, { cause: why }) : why;
      });
      if (found.ok) throw new Exists(put.id);
      return found.error === 'C6' ? exchange(put, putLine, deadline) : found;
    });
  }

  /** Gives one file after the other other declarations: the replies up to the first refusal. After a Failure it may be asked again. */
  async redeclare(text, deadline = 600) {
    const replies = [];
    for (const shard of this.shards) {
      replies.push(await this.#submit(shard, { do: 'redeclare', text }, deadline));
      if (replies.at(-1).error) break;
    }
    return replies;
  }

  /** Takes no more lines, has those answered that wait, as far as the seconds go, and ends each process in order: their exit statuses, null where none was running. */
  stop(seconds = 30) {
    return Promise.all(this.shards.map((shard) => shard.stop(seconds)));
  }
}

module.exports = { Pool, Shard, Failure, NotSent, OutcomeUnknown, Exists, parse, stringify };
