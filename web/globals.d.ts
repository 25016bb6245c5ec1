// Browser features that the checker's library doesn't know.

interface Window {
  VideoEncoder?: any;
  VideoFrame?: any;
}

interface Document {
  startViewTransition?: (call: () => void) => { ready: Promise<void>, finished: Promise<void>, updateCallbackDone: Promise<void> };
}

declare class CompressionStream implements GenericTransformStream {
  constructor(format: 'gzip' | 'deflate-raw');
  readonly readable: ReadableStream;
  readonly writable: WritableStream;
}

declare class DecompressionStream extends CompressionStream {}
