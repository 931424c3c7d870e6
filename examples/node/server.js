// A form in Node over a pool of `formd` processes.
//
//     FORMD=/path/to/formd FILES="a.db b.db" PORT=8000 SECRET=... KEY=... node examples/node/server.js
//
// One process of Node: a database file has one `formd`. `SECRET` signs the ids of forms: without it a form that was shown before a restart isn't
// taken behind it. `KEY` opens the list of all contacts (`Authorization: Bearer KEY`). SIGTERM ends it in order: no new connections, those that are
// there answered or after 20 s cut, each file closed.
'use strict';
const http = require('node:http');
const path = require('node:path');
const { createHash, createHmac, randomBytes, randomUUID, timingSafeEqual } = require('node:crypto');
const { isDeepStrictEqual } = require('node:util');
const { Pool, Exists, Failure, stringify } = require('../../clients/node/formd-client.js');

const FIELDS = ['name', 'email', 'topic'];
const LONGEST = 100_000;
const SECRET = process.env.SECRET || randomBytes(32).toString('hex');
const KEY = process.env.KEY || randomBytes(32).toString('hex');
// 400 for all others: the same line is refused again. So is one for which formd has no memory (C12).
const STATUSES = { C1: 413, C6: 404, C10: 422, C11: 503 };
const declarations = path.join(__dirname, '..', 'contact.json');
const pool = new Pool(process.env.FORMD ?? 'formd', declarations, (process.env.FILES ?? 'contacts-0.db contacts-1.db').split(' '));

const escape = (text) => text.replace(/[&<>"']/g, (c) => `&#${c.charCodeAt(0)};`);
const digest = (text) => createHash('sha256').update(text).digest();
const same = (one, other) => timingSafeEqual(digest(one), digest(other));

/** An id with its signature, by which nobody names an id that he wasn't given. */
const signed = (id) => `${id}.${createHmac('sha256', SECRET).update(id).digest('hex')}`;

/** The id of a token that was signed here, else null. */
function idOf(token) {
  const [id] = token.split('.');
  return same(token, signed(id)) ? id : null;
}

const refused = (reply) => [STATUSES[reply.error] ?? 400, `${reply.error} ${reply.name}`];

/** The form with what was given, and under each field what was told of it. */
function page(token, given, told) {
  const rows = FIELDS.map((name) => {
    const texts = (told[name] ?? []).map((text) => ` <b>${escape(text)}</b>`).join('');
    return `<p>${name} <input name="${name}" value="${escape(given[name] ?? '')}">${texts}</p>`;
  });
  return `<form method="post"><input type="hidden" name="token" value="${escape(token)}">${rows.join('')}<button>Send</button></form>`;
}

/** The fields of a request's body, or null where it is too long: a little of the rest is read, so that the answer is seen. */
async function body(request) {
  const parts = [];
  let length = 0;
  for await (const part of request) {
    length += part.length;
    if (length > 20 * LONGEST) request.destroy();
    else if (length <= LONGEST) parts.push(part);
  }
  return length > LONGEST ? null : new URLSearchParams(Buffer.concat(parts).toString());
}

async function send(request) {
  const given = await body(request);
  if (given === null) return [413, 'the body is too long'];
  const token = given.get('token') ?? '';
  const id = idOf(token);
  if (id === null) return [403, "the form isn't one of this server"];
  // a field that is left empty is null, which NotNull and NotBlank refuse
  const fields = Object.fromEntries(FIELDS.filter((name) => given.get(name)).map((name) => [name, given.get(name)]));
  const bundle = { root: 'c', objects: { c: { type: 'Contact', fields } } };
  let reply;
  try {
    reply = await pool.create({ do: 'put', id, form: 'contact', bundle });
  } catch (why) {
    if (!(why instanceof Exists)) throw why;
    // sent twice, as behind a 503: the first one stays
    reply = await pool.ask({ do: 'get', id });
    if (reply.ok && !isDeepStrictEqual(reply.bundle, bundle)) return [409, 'this form was sent already, with other fields'];
  }
  if (reply.ok) return [303, '', { location: `/contact/${token}` }];
  if (reply.error !== 'C10') return refused(reply);
  const told = {};
  for (const { path: at, message } of reply.records[0].violations) (told[at] ??= []).push(message);
  return [422, page(token, fields, told)];
}

async function show(token) {
  const id = idOf(token);
  if (id === null) return [404, 'no such page'];
  const reply = await pool.ask({ do: 'get', id });
  return reply.ok ? [200, stringify(reply.bundle.objects.c.fields)] : refused(reply);
}

async function contacts(request, { searchParams }) {
  if (!same(request.headers.authorization ?? '', `Bearer ${KEY}`)) return [401, 'a key is needed'];
  const limit = Number(searchParams.get('limit') ?? 100);
  const after = searchParams.has('after') ? { after: searchParams.get('after') } : {};
  const reply = await pool.ask({ do: 'list', form: 'contact', limit, ...after });
  return reply.ok ? [200, stringify(reply)] : refused(reply);
}

async function answer(request) {
  const url = new URL(request.url, 'http://localhost');
  const isRoot = url.pathname === '/';
  if (!isRoot && url.pathname !== '/contacts' && !url.pathname.startsWith('/contact/')) return [404, 'no such page'];
  if (isRoot && request.method === 'POST') return send(request);
  if (request.method !== 'GET' && request.method !== 'HEAD') return [405, 'no such method', { allow: isRoot ? 'GET, HEAD, POST' : 'GET, HEAD' }];
  if (isRoot) return [200, page(signed(randomUUID()), {}, {})];
  return url.pathname === '/contacts' ? contacts(request, url) : show(url.pathname.slice('/contact/'.length));
}

let isStopping = false;
const server = http.createServer(async (request, response) => {
  let told;
  try {
    told = await answer(request);
  } catch (why) {
    // what was sent may have been made or not: the page has the same id, so sending it again is safe
    console.error(`${why}`);
    told = why instanceof Failure ? [503, 'please send it again in a moment', { 'retry-after': '1' }] : [400, 'no such request'];
  }
  const [status, text, headers = {}] = told;
  const closing = isStopping || status === 413 ? { connection: 'close' } : {};
  response.writeHead(status, { 'content-type': text.startsWith('<') ? 'text/html; charset=utf-8' : 'text/plain; charset=utf-8', ...headers, ...closing });
  response.end(text);
});
server.requestTimeout = 30_000;

server.listen(Number(process.env.PORT ?? 8000), '127.0.0.1');
process.on('SIGTERM', async () => {
  isStopping = true;
  const closed = new Promise((resolve) => server.close(resolve));
  server.closeIdleConnections();
  // whoever sends nothing more by then is cut
  setTimeout(() => server.closeAllConnections(), 20_000).unref();
  await closed;
  await pool.stop();
});
