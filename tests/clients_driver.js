// What the callers of the client in Node do and are told, for tests/clients.py: `clients_driver.js PLAY CONFIG` prints it as JSON. clients_driver.py does the same in Python.
'use strict';
const fs = require('node:fs');
const path = require('node:path');
const { Pool, Failure, NotSent, OutcomeUnknown, Exists } = require('../clients/node/formd-client.js');

const now = () => performance.now() / 1000;
const sleep = (seconds) => new Promise((resolve) => setTimeout(resolve, seconds * 1000));
const range = (count) => [...Array(count).keys()];
const put = (id, fields) => ({ do: 'put', id, form: 'f', bundle: { root: 'a', objects: { a: { type: 'T', fields } } } });
const get = (id) => ({ do: 'get', id });
const fieldsOf = (reply) => reply.bundle.objects.a.fields;
const same = (one, other) => JSON.stringify(one) === JSON.stringify(other);
const poolOf = (config, databases = config.databases) => new Pool(config.program, config.declarations, databases, config.limits);
const sideBySide = (callers, call) => Promise.all(range(callers).map(call));

/** What is told of a promise: its value, or the name of what is thrown in its place. */
async function told(promise) {
  try {
    return await promise;
  } catch (why) {
    if (why instanceof Failure || why instanceof RangeError) return why.constructor.name;
    throw why;
  }
}

async function until(isSo, seconds = 0.01) {
  while (!(await isSo())) await sleep(seconds);
}

/** Tells the stub, or waits until it tells. */
const tell = (config, word) => fs.writeFileSync(`${config.databases[0]}.${word}`, '');
const wait = (config, word) => until(() => fs.existsSync(`${config.databases[0]}.${word}`));

/** Plays over a pool that is stopped behind them. */
const over = (play) => async (config) => {
  const pool = poolOf(config);
  const found = await play(pool, config);
  await pool.stop();
  return found;
};

/** Asks until there is a reply, and counts what is told meanwhile. */
class Asker {
  constructor(pool) {
    this.pool = pool;
    this.found = { answered: {}, done: 0, unknown: 0, not_sent: 0, crossed: [], slowest: 0 };
  }

  /** The reply to the first of the commands that is answered, with its number. */
  async untilAnswered(make) {
    for (let attempt = 0; ; attempt += 1) {
      const begun = now();
      let why = null;
      try {
        return [attempt, await this.pool.ask(make(attempt))];
      } catch (failure) {
        if (!(failure instanceof Failure)) throw failure;
        why = failure;
      } finally {
        this.found.slowest = Math.max(this.found.slowest, now() - begun);
        this.found.unknown += why instanceof OutcomeUnknown;
        this.found.not_sent += why instanceof NotSent;
        if (why?.message.includes('another line')) this.found.crossed.push(why.message);
      }
      await sleep(why instanceof NotSent ? 0.01 : 0);
    }
  }

  /** Puts a record of its own, and asks something whose reply names it. */
  async put(id) {
    const [attempt, reply] = await this.untilAnswered((number) => put(id, { text: `${id} ${number}` }));
    this.compare(id, reply, { ok: 'put' });
    this.found.answered[id] = `${id} ${attempt}`;
    this.found.done += 1;
    const sort = this.found.done % 3;
    const long = id + 'x'.repeat(60);
    if (sort === 0) {
      this.compare(id, fieldsOf((await this.untilAnswered(() => get(id)))[1]), { text: `${id} ${attempt}` });
    } else if (sort === 1) {
      const [record] = (await this.untilAnswered(() => put(id, { text: long })))[1].records;
      this.compare(id, [record.id, record.violations[0].value], [id, long]);
    } else {
      const asked = { do: 'checkvalue', type: 'T', field: 'text', value: long };
      this.compare(id, (await this.untilAnswered(() => asked))[1].violations[0].value, long);
    }
  }

  compare(id, found, wanted) {
    if (!same(found, wanted)) this.found.crossed.push(`${id}: ${JSON.stringify(found)}`);
  }
}

const PLAYS = {
  /** Callers put records while the processes are killed. */
  async kills(config) {
    const pool = poolOf(config);
    const asker = new Asker(pool);
    const kill = async () => {
      for (const number of range(config.kills)) {
        await until(() => asker.found.done >= ((number + 0.5) * config.puts) / config.kills, 0);
        await sleep(Math.random() / 500);
        let child = null;
        await until(() => (child = pool.shards[Math.floor(Math.random() * pool.shards.length)].child), 0.001);
        child.kill('SIGKILL');
      }
    };
    const callers = sideBySide(config.callers, async (caller) => {
      for (let n = caller; n < config.puts; n += config.callers) await asker.put(`w${n}`);
    });
    await Promise.all([kill(), callers]);
    await asker.untilAnswered(() => ({ do: 'list', form: 'f' })); // so that each file has a process that ends in order
    return { ...asker.found, statuses: await pool.stop() };
  },

  /** The pool is stopped while callers put records. */
  async stop(config) {
    const pool = poolOf(config);
    const answered = {};
    const unknown = [];
    let count = 0;
    const callers = sideBySide(config.callers, async (caller) => {
      for (let n = 0; ; n += 1) {
        const reply = await told(pool.ask(put(`w${caller}-${n}`, { text: `${n}` })));
        if (reply === 'NotSent') return;
        if (reply.ok) answered[`w${caller}-${n}`] = `${n}`;
        else unknown.push(reply);
        count += 1;
      }
    });
    await until(() => count >= config.puts, 0.001);
    const statuses = await pool.stop();
    await callers;
    return { answered, unknown, statuses, behind: await told(pool.ask(get('w0-0'))) };
  },

  /** Each number is put, shown, put as it was shown under another id, and shown. */
  numbers: over(async (pool, config) => {
    const shown = [];
    for (const [at, digits] of config.numbers.entries()) {
      await pool.ask(put(`n${at}`, { number: BigInt(digits), text: digits }));
      const first = await pool.ask(get(`n${at}`));
      await pool.ask({ do: 'put', id: `m${at}`, form: 'f', bundle: first.bundle });
      const fields = fieldsOf(await pool.ask(get(`m${at}`)));
      shown.push([String(fields.number), fields.text]);
    }
    return shown;
  }),

  /** Callers create the same ids. */
  create: over(async (pool, config) => {
    const found = Object.fromEntries(config.ids.map((id) => [id, { told: [] }]));
    await sideBySide(config.callers, async (caller) => {
      for (const id of config.ids) found[id].told.push([caller, await told(pool.create(put(id, { text: `${caller}` })))]);
    });
    for (const id of config.ids) found[id].kept = fieldsOf(await pool.ask(get(id))).text;
    return found;
  }),

  /** Lines of every sort over several files. */
  lines: over(async (pool, config) => {
    const ids = range(30).map((n) => `r${n}`);
    for (const id of ids) await pool.ask(put(id, { text: id }));
    const pages = [];
    for (let page, after = {}; (page = (await pool.ask({ do: 'list', form: 'f', limit: 7, ...after })).ids).length; after = { after: page.at(-1) }) pages.push(page);
    const alike = ids.filter((id) => pool.shardOf(id) === pool.shardOf('r0'));
    const parts = ids.map((id) => ({ do: 'set', id, object: 'a', field: 'number', value: 5 }));
    const found = {
      pages,
      'no limit': await pool.ask({ do: 'list', form: 'f', limit: 0 }),
      'any value': await pool.ask({ do: 'checkvalue', type: 'T', field: 'text', value: 'x' }),
      'a batch': await pool.ask({ do: 'batch', parts: parts.filter((part) => alike.includes(part.id)) }),
      'its parts': [],
      alike: ids.map((id) => alike.includes(id)),
      'a batch of two files': await told(pool.ask({ do: 'batch', parts })),
      'no parts': await pool.ask({ do: 'batch', parts: [] }),
      'no id': await pool.ask({ do: 'get' }),
      'an id that is no text': await pool.ask({ do: 'get', id: 7 }),
      'no command': await pool.ask({}),
      'a line too long': await pool.ask(put('long', { text: 'x'.repeat(1048576) })),
      'half a character': await pool.ask(put('half', { text: '\ud800' })),
      'a redeclare': await pool.redeclare(config.text),
      'one that is refused': await pool.redeclare('{'),
      'one by ask': await told(pool.ask({ do: 'redeclare', text: '{}' })),
      'the last': (await pool.ask(get('r1'))).id,
      abc: range(7).map((n) => poolOf(config, Array(n + 1).fill(config.databases[0])).shardOf('abc')),
    };
    for (const id of ids) found['its parts'].push(fieldsOf(await pool.ask(get(id))).number === 5);
    return found;
  }),

  /** Callers put and show records of nearly a mebibyte. */
  large: over(async (pool) => {
    const texts = range(15).map((n) => `${n}`.repeat(60000).slice(0, 60000));
    const found = await sideBySide(8, async (caller) => {
      const isSame = [];
      for (const n of range(3)) {
        const id = `l${caller}-${n}`;
        const isTaken = same(await pool.ask(put(id, { text: id, texts })), { ok: 'put' });
        isSame.push(isTaken && same(fieldsOf(await pool.ask(get(id))), { text: id, texts }));
      }
      return isSame;
    });
    return found.flat();
  }),

  /** The folder of the file isn't there at first. */
  begin: over(async (pool, config) => {
    const first = await told(pool.ask(get('a')));
    fs.mkdirSync(path.dirname(config.databases[0]));
    return [first, await pool.ask(get('a'))];
  }),

  /** A second pool over the same file, whose lines aren't sent until the first one is stopped. */
  deploy: over(async (pool, config) => {
    const old = poolOf(config);
    await old.ask(put('a', { text: '1' }));
    const before = await told(pool.ask(get('a')));
    await old.stop();
    let reply;
    await until(async () => (reply = await told(pool.ask(get('a')))) !== 'NotSent');
    return [before, fieldsOf(reply)];
  }),

  /** A process that ends, says no JSON, twice as much, or something else; behind each one the next line. */
  wrong: over(async (pool, config) => {
    const found = [];
    let before = (await pool.ask(get('first'))).form;
    for (const id of ['fine', 'end', 'junk', 'two', 'other', 'large', 'more']) {
      const reply = await told(pool.ask(get(id)));
      if (id === 'more') {
        tell(config, 'said');
        await until(() => !pool.shards[0].child); // the line that nobody asked for has come
      }
      const behind = await pool.ask(get(`behind-${id}`));
      found.push([typeof reply === 'string' ? reply : reply.id, behind.id, behind.form === before]);
      before = behind.form;
    }
    return found;
  }),

  /** One line is held back, and more are asked than may wait. */
  full: over(async (pool, config) => {
    const asked = [pool.ask(get('hold'))];
    await wait(config, 'held');
    for (const n of range(config.limits.queue)) asked.push(pool.ask(get(`r${n}`)));
    const more = await told(pool.ask(get('more')));
    tell(config, 'go');
    const replies = await Promise.all(asked);
    return [replies.map((reply) => reply.id), more, (await pool.ask(get('behind'))).id];
  }),

  /** One line is never answered, and others wait behind it. */
  deadline: over(async (pool) => {
    const first = (await pool.ask(get('fine'))).form;
    const begun = now();
    let seconds;
    const never = told(pool.ask(get('never'))).finally(() => (seconds = now() - begun));
    const replies = await Promise.all(range(3).map((n) => pool.ask(get(`r${n}`))));
    return { never: await never, seconds, ids: replies.map((reply) => reply.id), others: replies.every((reply) => reply.form !== first) };
  }),

  /** A line waits behind a slow one for longer than it may, again and again: none of them stands in the way of the next. */
  patience: over(async (pool) => {
    const slow = pool.ask(get('slow'));
    const replies = [];
    while (replies.length < 20 && (replies.at(-1) ?? 'NotSent') === 'NotSent') replies.push(await told(pool.ask(get('waits'))));
    return [replies[0], replies.length < 20, (await slow).id];
  }),

  /** The pool is stopped while a line is under way that is never answered. */
  async cut(config) {
    const pool = poolOf(config);
    const never = told(pool.ask(get('never')));
    await wait(config, 'never');
    const begun = now();
    await pool.stop(0.5);
    return [await never, now() - begun];
  },

  /** A process that doesn't begin to answer. */
  opening: over(async (pool) => {
    const begun = now();
    return [await told(pool.ask(get('a'))), now() - begun];
  }),

  /** A process that ends at once, again and again. */
  pauses: over(async (pool) => {
    const found = [];
    for (const _ of range(5)) found.push(await told(pool.ask(get('a'))));
    return found;
  }),

  /** The processor is held by others for longer than the deadline: the reply that has come meanwhile is taken. */
  busy: over(async (pool) => {
    await pool.ask(get('fine'));
    const asked = told(pool.ask(get('quick')));
    await sleep(0); // by then the line is written
    for (const until_ = now() + 1; now() < until_; );
    return [(await asked).id];
  }),
};

PLAYS[process.argv[2]](JSON.parse(process.argv[3])).then((found) => console.log(JSON.stringify(found)));
