/**
 * The names of the statuses in `kombilad.h`, except OK, TOO_SHORT, NOT_CANONICAL, OTHER and those
 * of tapes.
 */
const NAMES = {
  1: 'NO_MEMORY',
  4: 'UNKNOWN_BASE',
  5: 'V0_BASE',
  6: 'TOO_DEEP',
  7: 'TOO_MANY',
  8: 'TOO_LONG',
  16: 'CID_END',
  17: 'CID_NOT_SHORTEST',
  18: 'CID_VARINT_TOO_LARGE',
  19: 'CID_EXPLICIT_VERSION_0',
  20: 'CID_UNKNOWN_VERSION',
  21: 'CID_DIGEST_TOO_LONG',
  22: 'CID_TRAILING_BYTES',
  32: 'TEXT_UNKNOWN_BASE',
  33: 'TEXT_INVALID_LENGTH',
  34: 'TEXT_INVALID_LETTER',
  35: 'TEXT_UNUSED_BITS',
  36: 'TEXT_WRONG_VERSION',
  37: 'TEXT_UTF8',
  48: 'BLOCK_END',
  49: 'BLOCK_NOT_SHORTEST',
  50: 'BLOCK_FLOAT',
  51: 'BLOCK_UNSUPPORTED',
  52: 'BLOCK_UTF8',
  53: 'BLOCK_KEY_NOT_TEXT',
  54: 'BLOCK_DUPLICATE_KEY',
  55: 'BLOCK_LINK_BYTES',
  56: 'BLOCK_TRAILING_BYTES',
  64: 'PATH_MISSING',
  65: 'PATH_NOT_A_CONTAINER',
  80: 'LINK_END',
  81: 'LINK_NOT_SHORTEST',
  82: 'LINK_VARINT_TOO_LARGE',
  83: 'LINK_EXPLICIT_VERSION_0',
  84: 'LINK_UNKNOWN_VERSION',
  85: 'LINK_DIGEST_TOO_LONG',
  86: 'LINK_TRAILING_BYTES',
  96: 'CAR_DONE',
  97: 'CAR_UNEXPECTED_END',
  98: 'CAR_LENGTH_NOT_SHORTEST',
  99: 'CAR_LENGTH_TOO_LARGE',
  100: 'CAR_EMPTY',
  101: 'CAR_TOO_LONG',
  102: 'CAR_NOT_A_HEADER',
  103: 'CAR_PAYLOAD',
  104: 'CAR_SHORT_PAYLOAD',
  112: 'UNKNOWN_HASH',
  113: 'WRONG_DIGEST',
  144: 'PB_END',
  145: 'PB_VARINT_TOO_LARGE',
  146: 'PB_UNKNOWN_FIELD',
  147: 'PB_FIELD_ORDER',
  148: 'PB_NO_HASH',
  149: 'PB_UTF8',
  160: 'JSON_UTF8',
  161: 'JSON_SYNTAX',
  162: 'JSON_END',
  163: 'JSON_FLOAT',
  164: 'JSON_INTEGER_RANGE',
  165: 'JSON_DUPLICATE_KEY',
  166: 'JSON_LINK',
  167: 'JSON_BYTES',
  168: 'JSON_RESERVED',
  169: 'JSON_RESERVED_MAP',
  176: 'CAR_MORE',
  192: 'WALK_DONE',
  193: 'WALK_CLOSED',
  194: 'FILE_CODEC',
  195: 'FILE_NO_DATA',
  196: 'FILE_NOT_FILE',
  197: 'FILE_SIZE_COUNT',
  198: 'FILE_SIZE',
  199: 'FILE_PART_SIZE',
  200: 'FILE_TOO_LARGE',
  201: 'FILE_TOO_MANY_BLOCKS',
  202: 'FILE_TOO_DEEP',
  203: 'FILE_TOO_MANY_PARTS',
  208: 'UNIXFS_END',
  209: 'UNIXFS_VARINT_TOO_LARGE',
  210: 'UNIXFS_UNKNOWN_FIELD',
  211: 'UNIXFS_FIELD_ORDER',
  212: 'UNIXFS_NO_TYPE',
  213: 'UNIXFS_UNKNOWN_TYPE',
  214: 'UNIXFS_MODE_TOO_LARGE',
  215: 'UNIXFS_NO_SECONDS',
  216: 'UNIXFS_NANOSECONDS',
  224: 'FOLDER_CODEC',
  225: 'FOLDER_NOT_FOLDER',
  226: 'FOLDER_HASH_FUNCTION',
  227: 'FOLDER_FANOUT',
  228: 'FOLDER_INVALID_NAME',
  229: 'FOLDER_NAME_ORDER',
  230: 'FOLDER_INVALID_SLOT',
  231: 'FOLDER_SLOT_ORDER',
  232: 'FOLDER_BIT_FIELD',
  233: 'FOLDER_NOT_SHARD',
  234: 'FOLDER_WRONG_SLOT',
  235: 'FOLDER_TOO_DEEP',
  236: 'FOLDER_MISSING',
  237: 'FOLDER_MORE',
  240: 'PACK_WIDTH',
  241: 'PACK_TOO_LARGE',
  242: 'PACK_NANOSECONDS',
  243: 'PACK_INVALID_NAME',
  244: 'PACK_NAME_ORDER',
  245: 'PACK_SAME_HASH',
  246: 'PACK_WAITING'
}

/**
 * The sentences of these statuses, which are read from the core when it first starts, and the
 * function that starts it.
 */
let sentences
let start

/**
 * Sets the function that starts the core. It is called if an error occurs before the core has
 * started.
 */
export function startBy (work) { start = work }

/**
 * Stores the sentences of these statuses, which `sentenceOf` returns. Only the first call has an
 * effect.
 */
export function useSentences (sentenceOf) {
  if (sentences !== undefined) return
  sentences = Object.create(null)
  for (const status of Object.values(statusNames)) sentences[status] = sentenceOf(status)
}

/** Returns the sentence of a status, or its name if the core can't be started. */
function sentence (status) {
  const work = start
  start = undefined
  if (sentences === undefined) work?.()
  return sentences?.[status] ?? NAMES[status] ?? `status ${status}`
}

/** The messages of errors that are not a status of the core. */
const OTHERS = {
  ENCODE_UNSUPPORTED: 'the data model has no such value',
  ENCODE_NUMBER: 'NaN, an infinity, or an integer that DAG-CBOR does not hold',
  ENCODE_STRING: 'a string with a surrogate that has no partner is not Unicode',
  ENCODE_TOO_DEEP: 'lists and maps nest deeper than 1,024 levels, or contain themselves',
  WRONG_VERSION: 'only a CID of DAG-PB with SHA2-256 has a version 0',
  CAR_READ_ONCE: 'the blocks of an iterator were asked for a second time',
  MISSING_BLOCK: 'a block is missing',
  MISSING_ENTRY: 'a folder has no entry with this name',
  PACK_NAME_ORDER: 'two entries have the same name, so rename one of them',
  NO_TAPE: 'this build of the core has no tapes',
  INPUT: 'the input is not of the type that the call takes',
  NOT_STARTED: 'the core can\'t be started here; in a browser call `await init()` first',
  TRAP: 'the core stopped, and is started anew with the next call'
}

/**
 * Represents an error of this package. `code` is its name. `offset` is the byte of the input at
 * which it occurred, or undefined. The calls for UnixFS also set `cid`, which is the CID of the
 * block, `link`, which is the index of the invalid link of a folder, `path`, which is the path up to
 * a missing name, and `entry`, which is the name of the entry that a folder can't have. `get` sets
 * `segment`, which is the number of the segment of a path that leads to nothing, counted from 1.
 */
export class KombiladError extends Error {
  constructor (code, message, offset) {
    super(offset === undefined ? message : `${message} (at byte ${offset})`)
    this.name = 'KombiladError'
    this.code = code
    this.offset = offset
    this.cid = undefined
    this.link = undefined
    this.path = undefined
    this.entry = undefined
    this.segment = undefined
  }
}

/** Returns the error of a status. */
export function ofStatus (status, offset) {
  return new KombiladError(NAMES[status] ?? 'OTHER', sentence(status), offset)
}

/** Returns the error of a name above, with `more` after its message. */
export function ofName (code, offset, more = '') {
  return new KombiladError(code, (OTHERS[code] ?? sentence(statusNames[code])) + more, offset)
}

/** The number of each status by its name. Tests use it too. */
export const statusNames = Object.fromEntries(Object.entries(NAMES).map(([status, name]) => [name, Number(status)]))
