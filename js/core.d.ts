// The classes over a module and a book of one's own.
import type { Book } from "./classes.js";

export * from "./classes.js";

/** The bytes of a file. */
export type Bytes = ArrayBuffer | ArrayBufferView;
/** A WebAssembly.Module, where the types of the platform have one. */
export type CompiledModule = typeof globalThis extends { WebAssembly: { Module: new (...given: any[]) => infer Module } } ? Module & object : never;
/** What is used of a Response of `fetch`. */
export interface FileResponse {
  readonly ok: boolean;
  readonly status: number;
  readonly statusText: string;
  arrayBuffer(): Promise<ArrayBuffer>;
}

/** Takes the module: its bytes, a WebAssembly.Module, or the response to a request for it, or its promise. A second call does nothing. */
export function load(source: Bytes | CompiledModule | FileResponse | Promise<FileResponse>): Promise<void>;
/** Takes the module at once. */
export function loadSync(source: Bytes | CompiledModule): void;
/** Makes the book of formatters for which none is named: a Book, or the JSON of one. It is kept. */
export function setWorld(book: string | Uint8Array | Book): Book;
/** The bytes of the module's memory, for measurements. */
export function memorySize(): number;
