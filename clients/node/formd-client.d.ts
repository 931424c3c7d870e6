// Types of formd-client.js. What a member means stands in docs/FORMATS.md, "Commands and replies".

/** A whole number is a number where a number can hold it, else a bigint; either is taken in commands. */
export type Datum = null | boolean | number | bigint | string | Datum[] | { [key: string]: Datum };

export interface Bundle {
  root: string;
  objects: { [name: string]: { type: string; fields?: { [field: string]: Datum } } };
}

export interface Put { do: 'put'; id: string; form: string; bundle: Bundle }
export interface SetField { do: 'set'; id: string; object: string; field: string; value: Datum }
export interface Remove { do: 'remove'; id: string }
export interface Batch { do: 'batch'; parts: (Put | SetField | Remove)[] }
export interface Get { do: 'get'; id: string }
export interface Check { do: 'check'; id: string; groups?: string[] }
export interface CheckField { do: 'checkfield'; id: string; object: string; field: string; groups?: string[] }
export interface CheckValue { do: 'checkvalue'; type: string; field: string; value: Datum; groups?: string[] }
export interface List { do: 'list'; form: string; after?: string; limit?: number }
export type Command = Put | SetField | Remove | Batch | Get | Check | CheckField | CheckValue | List;

export interface Violation { constraint: string; message: string; occurrence: number; path: string; value: Datum }

/** What an accepted command gives: `error` is missing. */
export type Taken =
  | { ok: 'put' | 'set' | 'remove' | 'batch' | 'redeclare'; error?: undefined }
  | { ok: 'get'; id: string; form: string; bundle: Bundle; error?: undefined }
  | { ok: 'check' | 'checkfield' | 'checkvalue'; violations: Violation[]; error?: undefined }
  | { ok: 'list'; ids: string[]; error?: undefined };

/** What a refused one gives: nothing has changed, and `ok` is missing. */
export type Refused =
  | { error: 'C1' | 'C2' | 'C3' | 'C4' | 'C6' | 'C7' | 'C8' | 'C9' | 'C11' | 'C12'; name: string; part?: number; ok?: undefined }
  | { error: 'C5'; name: 'Bundle'; fault: string; part?: number; ok?: undefined }
  | { error: 'C10'; name: 'Violations'; records: { id: string; violations: Violation[] }[]; ok?: undefined }
  | { error: 'C13'; name: 'Declarations'; fault: string; ok?: undefined }
  | { error: 'C14'; name: 'Unfit'; fault: string; id: string; ok?: undefined };

export type Reply = Taken | Refused;

/** The reply to a command of this kind. */
export type ReplyTo<C extends { do: string }> = Refused | (Taken & { ok: C['do'] });

/** There is no reply. */
export class Failure extends Error {}
/** The line never went to formd: it has changed nothing. */
export class NotSent extends Failure {}
/** The line went to formd and its reply didn't come: it was made, whole, or it wasn't. */
export class OutcomeUnknown extends Failure {}
/** The id of a `create` has a record: nothing was put. */
export class Exists extends Failure {}

/** All are seconds, but for the queue, which counts lines, and the largest, which counts bytes. */
export interface Limits {
  /** From the first byte of a line that is sent to the last of its reply: 10. */
  deadline?: number;
  /** Until a process that is started has opened its file and answers: 60. */
  opening?: number;
  /** Until a line's turn comes: 10. */
  patience?: number;
  /** Lines that wait for their turn at one file: 64. */
  queue?: number;
  /** Bytes of a reply; a process that says more is ended: 2 ** 28. */
  largest?: number;
  /** Before a process is started anew; it doubles with each that ends without an answer: 0.05. */
  pause?: number;
  /** 5. */
  longestPause?: number;
}

/** Shards over files. Their order and number are part of the data: never change them over files that have records. */
export class Pool {
  /** The program is a path, or words such as `['prlimit', '--as=2147483648', 'formd']`; `words` go behind those of `serve`. */
  constructor(program: string | string[], declarations: string, databases: string[], options?: Limits & { words?: string[] });
  /** The number of the file of an id. */
  shardOf(id: string): number;
  /** The reply to a command; of a list that of all files, merged. NotSent or OutcomeUnknown where there is none. */
  ask<C extends Command>(command: C, deadline?: number): Promise<ReplyTo<C>>;
  /** The reply to a put whose id has no record; Exists where it has one. */
  create(put: Put, deadline?: number): Promise<ReplyTo<Put>>;
  /** Gives one file after the other other declarations: the replies up to the first refusal. */
  redeclare(text: string, deadline?: number): Promise<Reply[]>;
  /** Takes no more lines, has those answered that wait, as far as the seconds go, and ends each process in order: their exit statuses, null where none was running. */
  stop(seconds?: number): Promise<(number | string | null)[]>;
}

/** JSON.parse, where a whole number that a number can't hold is a bigint. */
export function parse(text: string): any;
/** JSON.stringify, where a bigint is a whole number. */
export function stringify(value: unknown): string;
