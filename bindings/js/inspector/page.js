// Runs the page: sends requests to the worker, and shows its answers.
import { showTree } from './tree.js'
import { showBytes } from './hex.js'
import { showGraph } from './graph.js'
import { LONGEST_COPY, copyText, save } from './copy.js'
import { keep, kept } from './kept.js'

const ROWS = 100
const TOLD = 4000 // the number of milliseconds for which the page shows what it has done
const LATER = 150 // the number of milliseconds after which DAG-JSON follows the chosen value
const LONGEST_HEX = 1 << 20 // the maximum number of bytes that are copied as hexadecimal digits
const CODECS = { 0x71: 'DAG-CBOR', 0x0129: 'DAG-JSON', 0x70: 'DAG-PB', 0x55: 'raw' }
const EXTENSIONS = { ...CODECS, 0x71: 'cbor', 0x0129: 'json', 0x70: 'pb', 0x55: 'bin' }
const NODES = { raw: 'File', file: 'File', folder: 'Folder', shard: 'Sharded folder', symlink: 'Symbolic link', metadata: 'Metadata' }
const element = (id) => document.getElementById(id)
const number = new Intl.NumberFormat('en')
const worker = new Worker(new URL('./worker.js', import.meta.url), { type: 'module' })

/** The number of the last file that was read, by which the answers of earlier ones are dropped. */
let turn = 0
let from = 0
let counts = {}
/** The block that is shown. */
let shown

/** Creates an element with these properties and children. */
export function make (name, properties = {}, ...children) {
  const made = Object.assign(document.createElement(name), properties)
  made.append(...children)
  return made
}

const ask = (message) => worker.postMessage(message)
const say = (text) => { element('status').textContent = text }
const show = (id, shown) => { element(id).hidden = !shown }

function definition (list, rows) {
  list.replaceChildren(...rows.flatMap(([term, ...content]) => [make('dt', { textContent: term }), make('dd', {}, ...content)]))
}

// ---- Requests to the worker that have one answer

const waiting = new Map()
let requests = 0

function request (message) {
  return new Promise((resolve) => {
    waiting.set(++requests, resolve)
    ask({ ...message, id: requests })
  })
}

// ---- What is copied and saved

let telling

/** Shows for a few seconds what the page has done. */
function tell (text) {
  element('told').textContent = text
  clearTimeout(telling)
  telling = setTimeout(() => { element('told').textContent = '' }, TOLD)
}

async function copy (text, what) {
  tell(await copyText(text) ? `Copied ${what}.` : 'The browser does not allow this page to copy.')
}

/** Copies the content of a Blob, unless it is too long. */
async function copyBlob (blob, what) {
  if (blob.size > LONGEST_COPY) tell(`${number.format(blob.size)} bytes are too long to copy. You can save them.`)
  else copy(await blob.text(), what)
}

function saveAs (blob, name) {
  save(blob, name)
  tell(`Saved ${name}.`)
}

const tellError = ({ code, message }) => tell(`${code}: ${message}.`)

element('copy-cid').addEventListener('click', () => copy(shown.cid.text, 'the CID'))
element('save-block').addEventListener('click', () => {
  saveAs(new Blob([shown.bytes]), `${shown.cid.text}.${EXTENSIONS[shown.code] ?? 'bin'}`)
})
element('copy-hex').addEventListener('click', () => {
  const [begins, length] = shown.marked[1] ? shown.marked : [0, shown.length]
  if (length > LONGEST_HEX) return tell(`${number.format(length)} bytes are too long to copy. You can save the block.`)
  copy(Array.from(shown.bytes.subarray(begins, begins + length), (byte) => byte.toString(16).padStart(2, '0')).join(''), `${number.format(length)} ${length === 1 ? 'byte' : 'bytes'} in hexadecimal`)
})
for (const id of ['copy-cids', 'save-cids']) {
  element(id).addEventListener('click', async () => {
    const which = element('which').value
    const { blob, error } = await request({ type: 'cids', which })
    if (error) tellError(error)
    else if (id === 'save-cids') saveAs(blob, `${which}-cids.txt`)
    else copyBlob(blob, `${number.format(counts[which])} ${counts[which] === 1 ? 'CID' : 'CIDs'}`)
  })
}
for (const id of ['copy-json', 'save-json']) {
  element(id).addEventListener('click', async () => {
    const { index, cid, path, range } = shown
    const { blob, error } = await request({ type: 'json', index, range: range(), isWhole: true })
    if (error) tellError(error)
    else if (id === 'copy-json') copyBlob(blob, 'the DAG-JSON')
    else saveAs(blob, path.length ? `${cid.text}-part.json` : `${cid.text}.json`)
  })
}

let jsonTimer
let isAsking = false

/** Shows the DAG-JSON of the chosen value. At most one request is on its way to the worker. */
async function showJson () {
  if (!shown?.hasJson || !element('json').open) return
  if (isAsking) return soonJson()
  isAsking = true
  const { index, path, range, turn: asked } = shown
  const { text, length, error } = await request({ type: 'json', index, range: range(), isWhole: false })
  isAsking = false
  if (shown?.index !== index || shown.turn !== asked || shown.path !== path) return
  const of = path.length ? `The value at ${shorten(path.join('/'))}` : 'The block'
  element('json-said').textContent = error ? of : length > text.length ? `${of}: the first ${number.format(text.length)} of ${number.format(length)} characters` : `${of}: ${number.format(length)} ${length === 1 ? 'character' : 'characters'}`
  const pre = element('json-text')
  pre.replaceChildren(error ? make('span', { className: 'wrong', textContent: `${error.code}: ${error.message}.` }) : text)
  pre.scrollTop = 0
  for (const id of ['copy-json', 'save-json']) element(id).disabled = error !== undefined
}

function soonJson () {
  clearTimeout(jsonTimer)
  jsonTimer = setTimeout(showJson, LATER)
}

const shorten = (text) => text.length > 100 ? `${text.slice(0, 100)}…` : text

element('json').addEventListener('toggle', showJson)

// ---- The history of the browser

/** Identifies this document, since the entries of the history outlive it. */
const session = String(performance.timeOrigin)
/** The files that were opened, by number, and the number of the open file. */
const files = new Map()
let current = 0
/** The element that opened a block, which gets the focus when the user comes back. */
let opener

const depth = () => history.state?.depth ?? 0
const fragment = () => location.hash.slice(1)

/** Returns the address of this page with a fragment, or without one. */
const address = (name) => `${location.pathname}${location.search}${name ? `#${name}` : ''}`

/** Writes an entry for what is shown: a new one, or in place of the last one. */
function enter (isNew, name, more) {
  const state = { session, file: current, depth: isNew ? depth() + 1 : depth(), ...more }
  if (isNew) history.pushState(state, '', address(name))
  else history.replaceState(state, '', address(name))
}

/** Shows what the entry of the history names. */
function restore () {
  const { session: from, file } = history.state ?? {}
  if (from === session && file !== current && files.has(file)) return read(file)
  if (fragment()) ask({ type: 'find', text: fragment(), view: { entry: 'kept', mark: history.state?.mark, as: history.state?.as } })
  else showSummary()
}

// While a file is read, `showWanted` waits for its end.
addEventListener('popstate', () => { if (element('reading').hidden) restore() })

/** Shows the file without a block. */
function showSummary () {
  show('block', false)
  show('cid', false)
  shown = undefined
  entitle()
  if (opener?.isConnected) opener.focus()
  else if (!element('summary').hidden) element('summary-title').focus()
}

/** Sets the title of the page, which the history of the browser shows. */
function entitle () {
  const name = files.get(current)?.file?.name ?? files.get(current)?.gateway
  document.title = [shown && shorten(shown.cid.text), name, 'Kombilad inspector'].filter((it) => it).join(' - ')
}

// ---- Opening

/** Opens a file that the user has chosen, of which the browser may have a handle. */
function open (file, handle) {
  if (!file) return
  if (document.activeElement === element('again')) element('file').focus()
  show('again', false)
  keep(handle)
  const isFirst = current === 0
  current = files.size + 1
  files.set(current, { file })
  // A link names the block to show in the first file.
  if (isFirst) enter(false, location.hash.slice(1), { mark: history.state?.mark, as: history.state?.as })
  else enter(true, '', { depth: 0 })
  read(current)
}

/** Begins to show blocks of a gateway, with that of a CID. */
function openGateway (gateway, text) {
  show('again', false)
  current = files.size + 1
  files.set(current, { gateway })
  enter(true, text, { depth: 0 })
  read(current)
}

/** Reads a file that was opened, or the block of a gateway that the address names. */
function read (id) {
  const { file, gateway } = files.get(id)
  current = id
  turn++
  shown = opener = undefined
  for (const each of ['choice', 'summary', 'graph', 'blocks', 'block', 'cid', 'found', 'stop']) show(each, false)
  for (const each of ['failure', 'found-said', 'searching']) element(each).replaceChildren()
  element('sought').value = ''
  element('progress').removeAttribute('value')
  element('read').textContent = ''
  element('summary-title').textContent = gateway ? 'Gateway' : 'File'
  if (gateway) {
    say(`Asking ${gateway} for ${fragment()}.`)
    entitle()
    return ask({ type: 'gateway', gateway, text: fragment(), turn, view: { entry: 'kept', as: history.state?.as } })
  }
  show('reading', true)
  say(`Reading ${file.name}.`)
  entitle()
  ask({ type: 'open', file, turn, wanted: fragment() || undefined })
}

/** Shows the block that the history names, after the file is read. */
function showWanted () {
  if (fragment() || history.state?.file !== current) restore()
}

/** Opens the file of a handle. */
async function openHandle (handle) {
  try {
    open(await handle.getFile(), handle)
  } catch (error) {
    showFailure({ what: `${handle.name} can't be read: ${error.message}` })
  }
}

/** Opens the file that the browser has kept, or shows what the address names. */
async function begin () {
  const { files: [restored] } = element('file')
  if (restored) return open(restored)
  const handle = await kept()
  // The user can be faster.
  if (current !== 0) return
  if (handle && await handle.queryPermission() === 'granted') return openHandle(handle)
  if (fragment()) restore()
  if (!handle) return
  const button = element('again')
  button.textContent = `Open ${handle.name} again`
  button.onclick = async () => { if (await handle.requestPermission() === 'granted') openHandle(handle) }
  show('again', true)
}

/** Whether the browser's own dialog is used, which gives no handle. */
let isPlain = window.showOpenFilePicker === undefined

element('file').addEventListener('click', async (event) => {
  const { target } = event
  // The input keeps its file, and a second choice of this file is a change too.
  target.value = ''
  if (isPlain) return
  event.preventDefault()
  try {
    const [handle] = await window.showOpenFilePicker()
    openHandle(handle)
  } catch (error) {
    if (error.name === 'AbortError') return
    isPlain = true
    target.click()
  }
})
element('file').addEventListener('change', ({ target }) => open(target.files[0]))
addEventListener('dragover', (event) => {
  event.preventDefault()
  document.body.classList.add('over')
})
addEventListener('dragleave', () => document.body.classList.remove('over'))
addEventListener('drop', async (event) => {
  event.preventDefault()
  document.body.classList.remove('over')
  const { files: dropped, items: [item] } = event.dataTransfer
  const [file] = dropped
  if (!file) return
  element('file').files = dropped
  const handle = await item.getAsFileSystemHandle?.().catch(() => undefined)
  open(file, handle?.kind === 'file' ? handle : undefined)
})
element('open').addEventListener('submit', (event) => {
  event.preventDefault()
  const text = element('text').value.trim()
  if (text) ask({ type: 'cid', text })
})
element('fetch').addEventListener('submit', (event) => {
  event.preventDefault()
  const address = element('gateway').value.trim()
  openGateway(address.replace(/\/*(\/ipfs\/?)?$/, '/'), element('cid').dataset.text)
})
element('cid-close').addEventListener('click', () => {
  show('cid', false)
  if (asker?.isConnected && !asker.closest('[hidden]')) asker.focus()
  else element('text').focus()
})

// ---- The choice of a codec

const choose = (code, entry) => ask({ type: 'codec', code, view: { entry, keepsFocus: entry === 'new' } })

element('codec').append(...[0x71, 0x0129, 0x70, 0x55].map((value) => make('option', { value, textContent: CODECS[value] })))
element('codec').addEventListener('change', ({ target }) => choose(Number(target.value), 'new'))

// ---- Search

let searches = 0

element('search').addEventListener('submit', (event) => {
  event.preventDefault()
  const text = element('sought').value.trim()
  if (!text) return
  show('found', false)
  element('found').replaceChildren()
  show('stop', true)
  element('found-said').textContent = 'Searching.'
  ask({ type: 'search', text, number: ++searches })
})
element('stop').addEventListener('click', () => {
  ask({ type: 'stop' })
  element('sought').focus()
})

function showFound ({ hits, done, all, isFull }) {
  const count = number.format(hits.length)
  if (document.activeElement === element('stop')) element('sought').focus()
  show('stop', false)
  element('searching').textContent = ''
  show('found', hits.length > 0)
  element('found-said').textContent = isFull ? `The first ${count} hits. The rest of the file is not searched.`
    : `${hits.length ? count : 'No'} ${hits.length === 1 ? 'hit' : 'hits'}${done < all ? `, up to byte ${number.format(done)} of ${number.format(all)}` : ''}.`
  const list = element('found')
  list.scrollTop = 0
  list.replaceChildren(...hits.map(({ text, index, at, length, snippet }) => {
    const line = make('li', {}, linkTo({ text, index, mark: at === undefined ? undefined : [at, length] }))
    if (at === undefined) return line.append(make('span', { className: 'faint', textContent: 'its CID' })), line
    const [before, match, after] = snippet
    line.append(make('span', { className: 'faint', textContent: `byte ${number.format(at)}` }), make('bdi', { className: 'snippet' }, before, make('mark', { textContent: match }), after))
    return line
  }))
}

// ---- Lists of blocks

const WHICH = {
  all: 'all blocks',
  wrong: 'blocks of another digest than their CID',
  unknown: 'blocks whose hash function is not known here',
  unreadable: 'blocks that are not of their codec',
  unordered: 'blocks with keys out of order',
  missing: 'links to what is not in the file'
}

/**
 * Creates a link that opens a block, or shows the parts of the CID if the file doesn't have its
 * block.
 */
function linkTo ({ text, index, isFar, mark, as }) {
  const button = make('button', { type: 'button', className: 'link', textContent: as ?? text })
  if (index === undefined && isFar) {
    button.addEventListener('click', () => visitFar(text, { as }, button))
  } else if (index === undefined) {
    button.title = 'Its block is not in the file'
    button.addEventListener('click', () => askParts(text, button))
  } else {
    button.addEventListener('click', () => visit(index, { mark, as }, button))
  }
  return button
}

/**
 * Opens a block, with a new entry of the history. `mark` is the offset and length of a hit, and `as`
 * the name that a folder has for the block. `by` is the element that opens it. Browsers don't focus
 * each button that is clicked.
 */
function visit (index, { mark, as } = {}, by = document.activeElement) {
  if (!shown) opener = by
  ask({ type: 'block', index, view: { entry: 'new', mark, as } })
}

/** Gets a block from the gateway and opens it, with a new entry of the history. */
function visitFar (text, { as } = {}, by = document.activeElement) {
  if (!shown) opener = by
  say(`Asking for ${text}.`)
  ask({ type: 'fetch', text, view: { entry: 'new', as } })
}

/** The element that asked for the parts of a CID, which gets the focus when these are closed. */
let asker

/** Shows the parts of a CID that is not in the field. */
function askParts (text, by = document.activeElement) {
  asker = by
  element('text').value = text
  ask({ type: 'cid', text, more: { takesFocus: true } })
}

/** Shows the beginning of the list that `which` names. */
function showList (which) {
  const chooser = element('which')
  chooser.value = which
  from = 0
  askRows()
  chooser.focus()
  element('blocks').scrollIntoView({ block: 'nearest' })
}

function askRows () { ask({ type: 'rows', which: element('which').value, from, count: ROWS }) }

element('which').addEventListener('change', () => {
  from = 0
  askRows()
})
element('before').addEventListener('click', () => {
  from -= ROWS
  askRows()
})
element('after').addEventListener('click', () => {
  from += ROWS
  askRows()
})

function showRows (rows) {
  const all = counts[element('which').value]
  element('range').textContent = all === 0 ? 'none' : `${number.format(from + 1)} to ${number.format(from + rows.length)} of ${number.format(all)}`
  element('before').disabled = from === 0
  element('after').disabled = from + rows.length >= all
  element('list').replaceChildren(...rows.map((row) => {
    const line = make('li', {}, linkTo(row))
    if (row.missing) line.append(make('span', { className: 'faint', textContent: 'not in the file' }))
    else line.append(...[row.codec, `${number.format(row.length)} bytes at ${number.format(row.offset)}`].map((textContent) => make('span', { className: 'faint', textContent })))
    const said = make('span')
    for (const [name, textContent, applies] of [['wrong', 'wrong digest', row.wrong], ['faint', 'its hash function is not known here', row.unknown], ['wrong', 'not of its codec', row.unreadable], ['wrong', 'keys out of order', row.unordered]]) {
      if (applies) said.append(said.hasChildNodes() ? ', ' : '', make('span', { className: name, textContent }))
    }
    line.append(said)
    return line
  }))
}

function showFailure ({ what, error, bytes }) {
  const at = element('failure')
  at.replaceChildren(make('strong', { textContent: what }))
  if (error) at.append(` ${error.code}: ${error.message}.`)
  if (bytes) {
    const pre = make('pre', { tabIndex: 0, role: 'region', ariaLabel: 'The bytes around the error' })
    at.append(pre)
    showBytes(pre, bytes.content, { base: bytes.begins, at: error.offset - bytes.begins })
  }
}

// ---- Parts of a CID

/** Creates the value of a part, with a button that copies it. */
function part (text, what) {
  return [make('span', { textContent: text }), ' ', make('button', { type: 'button', className: 'small', textContent: 'Copy', ariaLabel: `Copy ${what}`, onclick: () => copy(text, what) })]
}

/** Shows the parts of a CID in a list of definitions. */
function showParts (parts, cid, index) {
  const rows = [['version', String(cid.version)], ['codec', cid.codec], ['hash', cid.hash], ['digest', `${cid.digest || 'none'} (${cid.size} bytes)`], ['bytes', ...part(cid.bytes, 'the bytes of the CID')], ...cid.texts.map(([name, text]) => [name, ...part(text, `the CID, ${name}`)])]
  if (index !== undefined) rows.push(['block', linkTo({ text: 'open it', index })])
  definition(parts, rows)
}

/** Shows the parts of a CID, or the error of the text, below the field for it. */
function showCid ({ cid, index, error, text }) {
  show('cid', true)
  show('fetch', !error)
  element('cid').dataset.text = text
  element('cid-title').textContent = error ? 'Not a CID' : 'CID'
  const parts = element('parts')
  if (!error) return showParts(parts, cid, index)
  const rows = [['text', text], ['error', make('span', { className: 'wrong', textContent: `${error.code}: ${error.message}` })]]
  if (error.offset !== undefined) rows.push(['at', make('span', {}, text.slice(0, error.offset), make('mark', { className: 'at', textContent: text[error.offset] ?? '␃' }), text.slice(error.offset + 1))])
  definition(parts, rows)
}

// ---- A block

function showBlock (block) {
  const { view = {}, bytes, cid } = block
  shown = { ...block, length: bytes.length, path: [], range: () => [], marked: view.mark ?? [0, 0] }
  const name = block.isFirst ? cid.text : `${cid.text}@${block.offset}`
  enter(view.entry === 'new', name, { mark: view.mark, as: view.as })
  entitle()
  show('block', true)
  show('cid', false)
  show('back', depth() > 0)
  const where = element('where')
  const [kind, said] = block.own
    ? ['faint', 'of which this CID is made']
    : block.right === undefined
      ? ['wrong', 'its hash function is not known here']
      : block.right ? ['right', 'its digest is right'] : ['wrong', 'its digest is wrong']
  const digest = make('span', { className: kind, textContent: said })
  where.replaceChildren(make('span', { className: 'mono', textContent: cid.text }), ` ${number.format(bytes.length)} bytes, `, digest)
  if (block.canonical === false) where.append(', ', make('span', { className: 'wrong', textContent: 'keys out of order' }))
  const error = element('error')
  error.replaceChildren()
  if (block.error) error.append(make('strong', { textContent: block.error.code }), ` ${block.error.message}`)
  const hex = { base: 0, at: block.error?.offset, buttons: [element('hex-before'), element('hex-after')], range: element('hex-range') }
  const mark = showBytes(element('hex'), bytes, hex)
  const reveal = showTree(element('tree'), { ...block, bytes: block.content ?? bytes }, {
    select: (span, path, range) => {
      // The offsets of DAG-JSON are not those of the text.
      const marked = block.content ? [0, 0] : span
      mark(...marked)
      Object.assign(shown, { marked, path, range })
      soonJson()
    },
    follow: (link) => link.index !== undefined ? visit(link.index) : link.isFar ? visitFar(link.text) : askParts(link.text)
  })
  for (const id of ['tree', 'tree-hint']) show(id, block.tape !== undefined)
  show('no-tree', block.tape === undefined)
  element('no-tree').textContent = block.tape ? '' : block.error ? 'No values: the block is rejected.' : block.hasValues ? 'The block has more values than can be shown here.' : 'Blocks of this codec have no values here.'
  showParts(element('block-parts'), cid)
  showNode(block.node, view.as)
  for (const id of ['json-said', 'json-text']) element(id).replaceChildren()
  element('block-title').textContent = `Block of codec ${cid.codec}`
  show('json', block.hasJson && !block.error)
  showJson()
  if (!view.keepsFocus) {
    element('block').scrollIntoView({ block: 'start' })
    const first = element('tree').querySelector('[role=treeitem]') ?? element('block-title')
    first.focus({ preventScroll: true })
  }
  if (view.mark) {
    if (!block.content) reveal(view.mark[0])
    mark(...view.mark)
    shown.marked = view.mark
  }
}

element('back').addEventListener('click', () => history.back())

// ---- Files and folders

/** The address of the picture that is shown. */
let picture

function showPicture (blob) {
  if (picture) URL.revokeObjectURL(picture)
  picture = blob && URL.createObjectURL(blob)
  show('picture', blob !== undefined)
  if (picture) element('picture').src = picture
  else element('picture').removeAttribute('src')
}

function showText (text) {
  const pre = element('file-text')
  pre.textContent = text ?? ''
  pre.scrollTop = 0
  show('file-text', text !== undefined)
}

const sayOfNode = (...parts) => element('node-said').replaceChildren(...parts)
const sayNodeError = ({ code, message }) => sayOfNode(make('span', { className: 'wrong', textContent: `${code}: ${message}.` }))

/** Returns a time as a text. */
function timeOf ({ seconds, nanoseconds }) {
  const time = new Date(Number(seconds) * 1000 + Math.floor(nanoseconds / 1e6))
  return Number.isNaN(time.getTime()) ? `${number.format(seconds)} seconds after 1970 began` : time.toISOString()
}

/** Shows what a block says of a file, a folder or a symbolic link with this name. */
function showNode (node, name) {
  show('node', node !== undefined)
  showPicture()
  showText()
  sayOfNode()
  element('entries').replaceChildren()
  if (node === undefined) return
  const { kind, size, mode, mtime, target, error } = node
  const isFile = kind === 'file' || kind === 'raw'
  element('node-title').replaceChildren(error ? 'No file or folder' : NODES[kind], ...name === undefined ? [] : [' ', make('bdi', { textContent: name })])
  definition(element('node-facts'), [
    ['size', size === undefined ? undefined : `${number.format(size)} bytes`],
    ['permissions', mode?.toString(8).padStart(4, '0')],
    ['changed', mtime && timeOf(mtime)],
    ['leads to', target && make('bdi', { textContent: new TextDecoder().decode(target) })]
  ].filter(([, content]) => content !== undefined))
  for (const id of ['show-file', 'save-file']) show(id, isFile)
  if (error) sayNodeError(error)
  if (kind === 'folder' || kind === 'shard') showEntries()
}

async function showEntries () {
  const of = shown
  sayOfNode('Reading the entries.')
  const { entries, isPart, error } = await request({ type: 'entries', index: of.index })
  if (shown !== of) return
  const count = number.format(entries.length)
  sayOfNode(isPart ? `The first ${count} entries.` : `${count} ${entries.length === 1 ? 'entry' : 'entries'}.`)
  if (error) element('node-said').append(make('span', { className: 'wrong', textContent: ` ${error.code}: ${error.message}.` }))
  element('entries').replaceChildren(...entries.map(({ name, tsize, text, index, isFar }) => {
    const line = make('li', {}, make('bdi', {}, linkTo({ text, index, isFar, as: name })))
    line.append(make('span', { className: 'faint', textContent: index === undefined && !isFar ? 'not in the file' : tsize === undefined ? '' : `${number.format(tsize)} bytes with all blocks` }))
    return line
  }))
}

element('show-file').addEventListener('click', async () => {
  const of = shown
  sayOfNode('Reading the file.')
  const { blob, text, isPart, isTooLong, error } = await request({ type: 'shown-file', index: of.index })
  if (shown !== of) return
  if (error) return sayNodeError(error)
  sayOfNode(blob ? '' : text === undefined ? isTooLong ? 'The picture is too long to show. You can save it.' : 'It is neither a picture nor a text that can be shown. You can save it.' : isPart ? 'The beginning of the text.' : '')
  element('picture').alt = of.view?.as ?? 'The picture in the file'
  showPicture(blob)
  showText(text)
})
element('picture').addEventListener('error', () => {
  // A picture that was taken away has no address.
  if (!picture) return
  showPicture()
  sayOfNode('The browser can\'t show this picture. You can save it.')
})
element('save-file').addEventListener('click', async () => {
  const of = shown
  sayOfNode('Reading the file.')
  const { blob, error } = await request({ type: 'whole-file', index: of.index })
  if (shown === of) error ? sayNodeError(error) : sayOfNode()
  if (blob) saveAs(blob, of.view?.as ?? `${of.cid.text}.bin`)
})

// ---- The answers of the worker

const answers = {
  ready () {
    say('Ready.')
    document.body.dataset.ready = 'true'
    // Browsers restore the input before the page is complete.
    if (document.readyState === 'complete') begin()
    else addEventListener('load', () => setTimeout(begin), { once: true })
  },
  progress ({ done, all, blocks }) {
    Object.assign(element('progress'), { max: all, value: done })
    // Not in the status, which screen readers read aloud: this text changes ten times a second.
    element('read').textContent = `${number.format(Math.floor(done / 1e6))} of ${number.format(Math.ceil(all / 1e6))} MB, ${number.format(blocks)} blocks`
  },
  failed (message) {
    show('reading', false)
    say('')
    showFailure(message)
  },
  car ({ name, size, version, roots, otherRoots, counts: all, failure }) {
    show('reading', false)
    counts = all
    from = 0
    say(`${name} is read.`)
    const some = (which, name = '') => all[which] === 0
      ? make('span', { className: name && 'right', textContent: '0' })
      : make('button', { type: 'button', className: `link ${name}`, textContent: number.format(all[which]), ariaLabel: `${number.format(all[which])}: show them`, onclick: () => showList(which) })
    definition(element('facts'), [
      ['name', name],
      ['size', `${number.format(size)} bytes`],
      ['format', `CAR version ${version}`],
      ['roots', ...(roots.length ? roots.flatMap((root, at) => at ? [make('br'), linkTo(root)] : [linkTo(root)]) : ['none']), otherRoots ? ` and ${number.format(otherRoots)} others` : ''],
      ['blocks', number.format(all.all)],
      ['wrong digests', some('wrong', 'wrong')],
      ['other hashes', some('unknown')],
      ['not of their codec', some('unreadable', 'wrong')],
      ['keys out of order', some('unordered', 'wrong')],
      ['missing', some('missing')]
    ])
    element('which').replaceChildren(...Object.entries(WHICH).map(([value, text]) => make('option', { value, textContent: `${text} (${number.format(all[value])})`, disabled: value !== 'all' && all[value] === 0 })))
    for (const id of ['summary', 'search', 'blocks']) show(id, true)
    show('codec-bar', false)
    if (failure) showFailure({ what: 'The file is read up to an error.', error: failure, bytes: failure.bytes })
    askRows()
    ask({ type: 'graph' })
    showWanted()
  },
  graph ({ nodes, edges, isPart, from }) {
    show('graph', nodes.length > 0)
    element('graph-said').textContent = `${isPart ? `The ${nodes.length} blocks nearest to ${from}` : `What links lead to from ${from}`}: a column for each step. Arrow keys go along the links; Enter opens a block.`
    showGraph(element('drawing'), { nodes, edges }, (node) => node.index === undefined ? askParts(node.text) : visit(node.index))
  },
  fetched ({ gateway, count }) {
    show('choice', false)
    say(`${gateway} has answered.`)
    element('failure').replaceChildren()
    definition(element('facts'), [['gateway', gateway], ['blocks', `${number.format(count)} shown so far`]])
    for (const id of ['codec-bar', 'search']) show(id, false)
    show('summary', true)
  },
  'block-file' ({ name, size, code, isOther, view = { entry: 'kept', mark: history.state?.mark, as: history.state?.as } }) {
    show('reading', false)
    show('choice', false)
    say(isOther ? `${name} is read. It is not the block ${fragment()}.` : `${name} is read.`)
    definition(element('facts'), [['name', name], ['size', `${number.format(size)} bytes`], ['format', 'a block; the CID is made of it']])
    for (const id of ['summary', 'search']) show(id, true)
    show('codec-bar', true)
    element('codec').value = code
    ask({ type: 'block', index: 0, view })
  },
  choice ({ name, size, errors }) {
    show('reading', false)
    show('choice', true)
    say(`${name} is neither a CAR nor a valid block. Choose how to read it.`)
    element('choice-said').textContent = `${name} has ${number.format(size)} bytes. Choose how to read it:`
    element('choices').replaceChildren(...errors.map(({ code, error }) => make('li', {},
      make('button', { type: 'button', textContent: CODECS[code], onclick: () => choose(code, 'kept') }),
      make('span', { className: 'faint', textContent: error ? `${error.code}: ${error.message}` : 'any bytes' }))))
  },
  rows ({ rows }) { showRows(rows) },
  block (block) { showBlock(block) },
  searching ({ number: of, done, all, hits }) {
    // Not in the status, which screen readers read aloud.
    if (of === searches) element('searching').textContent = `Searched ${number.format(Math.floor(done / 1e6))} of ${number.format(Math.ceil(all / 1e6))} MB: ${number.format(hits)} hits.`
  },
  found (message) { if (message.number === searches) showFound(message) },
  reply ({ id, ...answer }) {
    waiting.get(id)(answer)
    waiting.delete(id)
  },
  cid (message) {
    const { cid, error, text, isAbsent, takesFocus } = message
    if (isAbsent) show('block', false)
    showCid(message)
    if (error) say(`${text} is not a CID: ${error.message}.`)
    else if (!isAbsent) say(`The parts of ${cid.text} are below the field.`)
    else say(current ? `The block ${cid.text} is not in this file.` : `Open the file that has the block ${cid.text}.`)
    element('cid').scrollIntoView({ block: 'nearest' })
    if (takesFocus) element('cid-title').focus()
  }
}

worker.addEventListener('message', ({ data }) => {
  if (data.turn !== undefined && data.turn !== turn) return
  answers[data.type](data)
})
worker.addEventListener('error', (event) => {
  showFailure({ what: `The page's worker does not run: ${event.message ?? 'it has no message'}` })
})
