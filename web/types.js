// Types that several scripts use.

/**
 * @typedef {object} Merges - see merges.js
 * @property {Uint32Array} roots
 * @property {Uint32Array} larger
 * @property {Uint32Array} smaller
 * @property {Uint32Array} size
 * @property {Uint32Array} least
 * @property {Uint32Array} first
 * @property {Uint32Array} order
 *
 * @typedef {object} Rounds - see rounds.js
 * @property {Uint8Array} round
 * @property {Uint8Array} endpoints
 * @property {Uint32Array[]} labels
 * @property {number[]} counts
 * @property {Uint8Array} born
 *
 * @typedef {object} Choice - see columns.js; the optional fields are set when the table is read
 * @property {string} kind
 * @property {Record<string, number>} roles
 * @property {boolean} hasHeader
 * @property {boolean} [leavesOut] - whether rows without a value are left out
 * @property {string} [separator]
 * @property {boolean} [commas] - whether a comma is the decimal mark
 * @property {string} [encoding]
 * @property {string} [skips] - `comments`, or `header` if a comment names the columns
 *
 * @typedef {{ bytes: Uint8Array, ends: Uint32Array }} Names - see names.js
 *
 * @typedef {object} Shown - a result of the worker; see worker.js
 * @property {string} kind
 * @property {number} n
 * @property {Names | null} names
 * @property {Float64Array} points
 * @property {Float64Array} places
 * @property {number} turn
 * @property {Uint32Array} forest
 * @property {Float64Array} heights
 * @property {boolean} isExact
 * @property {number | bigint} total
 * @property {Uint32Array | null} others
 * @property {number} [links]
 * @property {Merges | null} merges
 * @property {Rounds | null} rounds
 * @property {boolean} isProved
 * @property {number} milliseconds
 * @property {string[]} notes
 * @property {Choice} [choice]
 * @property {string} [format]
 *
 * @typedef {object} Clusters - see clusters.js
 * @property {number} count
 * @property {number} kept
 * @property {Uint32Array} nodes
 * @property {Uint32Array} colours
 * @property {Uint32Array} colour
 *
 * @typedef {{ x: number, y: number, zoom: number }} View
 *
 * @typedef {{ name: string, content: Uint8Array }} Bytes - a file, if a worker may not read files
 *
 * @typedef {object} Snapshot - what undo restores
 * @property {Shown | null} shown
 * @property {File | Bytes | null} file
 * @property {File | Bytes | null} placesFile
 * @property {number | null} count
 * @property {number | null} smallest
 * @property {View | null} view
 *
 * @typedef {object} State - see state.js
 * @property {Shown | null} shown
 * @property {File | Bytes | null} file
 * @property {File | Bytes | null} placesFile
 * @property {Clusters | null} clusters
 * @property {number | null} smallest
 * @property {number | null} round
 * @property {boolean} isStepped
 * @property {number} playing
 * @property {View | null} view
 * @property {number} picked
 * @property {{ begin: number, end: number } | null} branch
 * @property {string} tool
 * @property {{ x: number, y: number } | null} cross
 * @property {string} scale
 * @property {boolean} hasWeights
 * @property {boolean} hasOthers
 * @property {Snapshot[]} past
 * @property {Snapshot[]} future
 * @property {{ left: number, top: number, width: number, height: number }} free
 * @property {number} turn
 * @property {number} draws
 * @property {Promise<unknown>} adding
 * @property {Record<string, unknown>} drawn
 * @property {{ isAwaited: boolean, free: number }} tree
 * @property {boolean} isPrinted
 * @property {boolean} canFilm
 */

export {};
