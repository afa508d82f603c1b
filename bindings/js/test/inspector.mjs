// Tests the inspector in Chromium with valid and invalid blocks and CAR files, and a large CAR.
//
//     node inspector.mjs INSPECTOR FOLDER [SCREENSHOTS]
import assert from 'node:assert/strict'
import { createHash } from 'node:crypto'
import { appendFileSync, existsSync, mkdirSync, readFileSync, writeFileSync } from 'node:fs'
import { createServer } from 'node:http'
import { resolve } from 'node:path'
import { pathToFileURL } from 'node:url'
import { browse, serve } from './chromium.mjs'

const [inspector, folder, screenshots] = process.argv.slice(2).map((path) => resolve(path))
const MEGABYTES = Number(process.env.MEGABYTES ?? 100)
mkdirSync(folder, { recursive: true })

// ---- Files, encoded without the package

const varint = (number) => number < 128 ? [number] : [number & 127 | 128, ...varint(number >>> 7)]
const head = (major, length) => length < 24 ? [major << 5 | length] : length < 256 ? [major << 5 | 24, length] : [major << 5 | 25, length >> 8, length & 255]
const cidOf = (codec, bytes) => Buffer.from([1, codec, 0x12, 32, ...createHash('sha256').update(bytes).digest()])
const base32 = (bytes) => [...bytes].map((byte) => byte.toString(2).padStart(8, '0')).join('').match(/.{1,5}/g).map((bits) => 'abcdefghijklmnopqrstuvwxyz234567'[parseInt(bits.padEnd(5, '0'), 2)]).join('')
const text = (string) => Buffer.from([...head(3, Buffer.byteLength(string)), ...Buffer.from(string)])
const link = (cid) => Buffer.from([0xd8, 42, ...head(2, cid.length + 1), 0, ...cid])
const list = (...items) => Buffer.concat([Buffer.from(head(4, items.length)), ...items])
const map = (...pairs) => Buffer.concat([Buffer.from(head(5, pairs.length)), ...pairs.flatMap(([key, value]) => [text(key), value])])
const framed = (...parts) => Buffer.concat([Buffer.from(varint(parts.reduce((all, part) => all + part.length, 0))), ...parts])
const header = (...roots) => framed(map(['roots', list(...roots.map(link))], ['version', Buffer.from([1])]))

const leaf = Buffer.from('the content of a leaf')
const gone = Buffer.from('what is not in the file')
const post = map(['text', text('Grüße aus Zürich')], ['next', link(cidOf(0x55, leaf))], ['size', Buffer.from([0x1b, 0, 0x20, 0, 0, 0, 0, 0, 0])], ['scores', list(...Array.from({ length: 450 }, (_, at) => Buffer.from(head(0, at))))], ['missing', link(cidOf(0x71, gone))])
const sorted = map(['next', link(cidOf(0x55, leaf))], ['size', Buffer.from([0x1b, 0, 0x20, 0, 0, 0, 0, 0, 0])], ['text', text('Grüße aus Zürich')], ['scores', list(...Array.from({ length: 450 }, (_, at) => Buffer.from(head(0, at))))], ['missing', link(cidOf(0x71, gone))])
const top = map(['title', text('A tree')], ['children', list(link(cidOf(0x71, sorted)), link(cidOf(0x55, leaf)))])
const bad = Buffer.concat([Buffer.alloc(0), map(['a', Buffer.from([0x61, 0xff])])])
const car = Buffer.concat([
  header(cidOf(0x71, top)), ...[[0x71, top], [0x71, sorted], [0x71, post], [0x55, leaf], [0x71, bad]].map(([codec, bytes]) => framed(cidOf(codec, bytes), bytes)),
  framed(cidOf(0x55, gone.subarray(1)), gone), framed(Buffer.from([1, 0x55, 0x11, 1, 0]), leaf)
])
// A DAG-PB node with two links and data, field by field.
const field = (number, content) => Buffer.concat([Buffer.from([number << 3 | 2, ...varint(content.length)]), content])
const node = Buffer.concat([
  field(2, Buffer.concat([field(1, cidOf(0x55, leaf)), field(2, Buffer.from('leaf.txt')), Buffer.from([0x18, 21])])),
  field(2, field(1, cidOf(0x55, gone))), field(1, Buffer.from([8, 1]))
])
const directory = Buffer.concat([header(cidOf(0x70, node)), ...[[0x70, node], [0x55, leaf], [0x70, Buffer.from([0x0a])]].map(([codec, bytes]) => framed(cidOf(codec, bytes), bytes))])
// A folder of UnixFS with a text, a picture of two blocks, a link, other bytes, and a file of which a
// block is missing.
const png = Buffer.from('iVBORw0KGgoAAAANSUhEUgAAAAEAAAABCAYAAAAfFcSJAAAADUlEQVR42mNk+M9QDwADhgGAWjR9awAAAABJRU5ErkJggg==', 'base64')
const halves = [png.subarray(0, 30), png.subarray(30)]
const binary = Buffer.from([0, 1, 2, 255])
const linkTo = (cid, name = '') => field(2, Buffer.concat([field(1, cid), field(2, Buffer.from(name))]))
const fileOf = (parts, more = []) => Buffer.concat([...parts.map((it) => linkTo(cidOf(0x55, it))), field(1, Buffer.from([8, 2, 0x18, parts.reduce((sum, { length }) => sum + length, 0), ...parts.flatMap(({ length }) => [0x20, length]), ...more]))])
const photoNode = fileOf(halves, [0x38, 0xa0, 3, 0x42, 2, 8, 1])
const cutNode = fileOf([leaf, gone])
const symlinkNode = field(1, Buffer.from([8, 4, 0x12, 9, ...Buffer.from('photo.png')]))
const members = [['cut.txt', 0x70, cutNode], ['hello.txt', 0x55, leaf], ['link', 0x70, symlinkNode], ['other', 0x55, binary], ['photo.png', 0x70, photoNode]]
const folderNode = Buffer.concat([...members.map(([name, codec, bytes]) => linkTo(cidOf(codec, bytes), name)), field(1, Buffer.from([8, 1]))])
const unixfs = Buffer.concat([header(cidOf(0x70, folderNode)), ...[[0x70, folderNode], ...members.map(([, codec, bytes]) => [codec, bytes]), ...halves.map((bytes) => [0x55, bytes])].map(([codec, bytes]) => framed(cidOf(codec, bytes), bytes))])
const HTML = '<img src=x onerror=alert(1)>'
const long = 'a name that is longer than a line of a narrow window, without a place to break '.replaceAll(' ', '_').repeat(3)
const write = (name, bytes) => {
  writeFileSync(`${folder}/${name}`, bytes)
  return `${folder}/${name}`
}
const files = {
  car: write('tree.car', car),
  cut: write('cut.car', car.subarray(0, car.length - 5)),
  block: write('post.cbor', sorted),
  wrong: write('wrong.cbor', Buffer.concat([Buffer.from([0x98, 100]), Buffer.concat(Array.from({ length: 100 }, (_, at) => Buffer.from([0x18, at < 90 ? 100 : at === 90 ? 5 : 100])))])),
  directory: write('directory.car', directory),
  unixfs: write('unixfs.car', unixfs),
  roots: write(`${long.slice(0, 200)}.car`, Buffer.concat([header(...Array.from({ length: 500 }, (_, at) => cidOf(0x55, Buffer.from(String(at))))), framed(cidOf(0x71, map([long, text(long)])), map([long, text(long)]))])),
  integers: write('integers.cbor', Buffer.concat([Buffer.from([0x9a, 0, 0x0f, 0x42, 0x40]), Buffer.alloc(1e6, 7)])),
  photo: write('photo.jpg', Buffer.from('ffd8ffe000104a46494600010100000100010000ffd9', 'hex')),
  json: write('value.json', Buffer.from(' {"b":"the content of a text","a":[{"/":"bafkqaaa"},1.5,{"/":{"bytes":"AQID"}}]}\n')),
  twice: write('twice.car', Buffer.concat([header(), ...[sorted, sorted].map((bytes) => framed(cidOf(0x71, bytes), bytes))])),
  markup: write('<img src=x onerror=alert(1)>.cbor', map([HTML, list(text(HTML), link(cidOf(0x55, leaf)))])),
  large: `${folder}/large.car`
}

function writeLarge () {
  writeFileSync(files.large, header())
  const content = Buffer.alloc(200000)
  let next = cidOf(0x71, top)
  for (let done = 0, number = 0; done < MEGABYTES * 1e6;) {
    const parts = []
    for (let size = 0; size < 8e6 && done < MEGABYTES * 1e6; number++) {
      content.writeUInt32LE(number)
      const [codec, bytes] = number % 4 === 3 ? [0x55, content.subarray(0, 1000 + number % 7 * 30000)] : [0x71, map(['n', Buffer.from([0x1a, ...Buffer.from(number.toString(16).padStart(8, '0').replace(/^0000/, '0001'), 'hex')])], ['next', link(next)], ['text', text('a record '.repeat(20))])]
      next = cidOf(codec, bytes)
      const section = framed(next, Buffer.from(bytes))
      parts.push(section)
      size += section.length
      done += section.length
    }
    appendFileSync(files.large, Buffer.concat(parts))
  }
}

// ---- The page

const server = await serve(inspector)
const page = await browse(server.url)
const picture = async (name) => { if (screenshots) writeFileSync(`${screenshots}/${name}.png`, await page.screenshot()) }
// Takes a picture of a part of the page for docs/: from the top of an element, in a window 760
// pixels wide.
const part = async (name, id, height) => {
  const window = (width) => page.call('Emulation.setDeviceMetricsOverride', { width, height: 1000, deviceScaleFactor: 1, mobile: false })
  await window(760)
  const y = await page.value(`document.getElementById('${id}').getBoundingClientRect().top + scrollY`)
  if (screenshots) writeFileSync(`${screenshots}/${name}.png`, await page.screenshot({ x: 12, y: y - 8, width: 736, height, scale: 1 }))
  await window(1280)
}
const said = (id) => page.value(`document.getElementById('${id}').innerText`)
const fact = (id, term) => page.value(`[...document.querySelectorAll('#${id} dt')].find((it) => it.textContent === ${JSON.stringify(term)})?.nextElementSibling.innerText.replace(/ Copy$/, '')`)
const chosen = () => page.value("document.activeElement.getAttribute('aria-label')")
const json = async () => {
  await page.value("document.getElementById('json-text').textContent = ''; document.getElementById('json').open = false")
  await page.value("document.querySelector('#json summary').click()")
  await page.until("document.getElementById('json-text').textContent !== ''")
  return page.value("document.getElementById('json-text').textContent")
}
const dark = (scheme) => page.call('Emulation.setEmulatedMedia', { features: [{ name: 'prefers-color-scheme', value: scheme }] })
try {
  await page.until("document.body.dataset.ready === 'true'")
  assert.equal(await page.value("getComputedStyle(document.getElementById('unserved')).display"), 'none')

  // A CAR: the numbers of its valid and invalid blocks.
  await page.choose('#file', files.car)
  await page.until("document.querySelectorAll('#list li').length === 7")
  assert.deepEqual(await Promise.all(['blocks', 'wrong digests', 'other hashes', 'not of their codec', 'keys out of order', 'missing'].map((term) => fact('facts', term))), ['7', '1', '1', '1', '1', '1'])
  assert.equal(await fact('facts', 'format'), 'CAR version 1')
  await part('inspector-car', 'graph', 676)
  await page.value("(() => { const which = document.getElementById('which'); which.value = 'wrong'; which.dispatchEvent(new Event('change')) })()")
  await page.until("document.querySelectorAll('#list li').length === 1")
  assert.match(await said('list'), /wrong digest/)
  // A number opens the list that it counts.
  await page.value("[...document.querySelectorAll('#facts dt')].find((it) => it.textContent === 'missing').nextElementSibling.firstChild.click()")
  await page.until("/not in the file/.test(document.getElementById('list').innerText)")
  assert.deepEqual(await page.value("[document.activeElement.id, document.activeElement.value]"), ['which', 'missing'])

  // The graph: the root, the blocks that it links to, and the blocks that these link to, including
  // a missing block.
  await page.until("document.querySelectorAll('#drawing [role=button]').length === 4")
  assert.equal(await page.value("document.querySelectorAll('#drawing svg > path').length"), 4)
  await page.value("document.querySelector('#drawing [tabindex=\"0\"]').focus()")
  assert.equal(await chosen(), `${'b' + base32(cidOf(0x71, top))}, 0x71 (dag-cbor)`)
  await page.press('ArrowRight')
  assert.equal(await chosen(), `${'b' + base32(cidOf(0x71, sorted))}, 0x71 (dag-cbor)`)
  await page.press('End')
  await page.press('ArrowRight')
  await page.press('ArrowDown')
  assert.equal(await chosen(), `${'b' + base32(cidOf(0x71, gone))}, not in the file`)
  await page.press('ArrowLeft')
  await page.press('Enter')
  await page.until("document.activeElement.getAttribute('aria-label') === 'map map of 5'")

  // The keyboard moves from the root to a child and back.
  await page.value("document.querySelector('#facts .link').click()")
  await page.until("document.activeElement.getAttribute('aria-label') === 'map map of 2'")
  await page.press('ArrowDown')
  assert.equal(await chosen(), 'title: string "A tree"')
  assert.equal(await page.value("document.querySelector('#hex mark').textContent"), '41')
  await page.press('End')
  assert.equal(await chosen(), 'children: list list of 2')
  await page.press('ArrowRight')
  await page.press('ArrowRight')
  assert.match(await chosen(), /^0: link bafy/)
  await page.press('ArrowLeft')
  await page.press('ArrowLeft')
  assert.equal(await page.value("document.activeElement.getAttribute('aria-expanded')"), 'false')
  await page.press('ArrowRight')
  await page.press('ArrowDown')
  await page.press('Enter')
  await page.until("document.activeElement.getAttribute('aria-label') === 'map map of 5'")
  assert.match(await said('tree'), /size: 9007199254740992\n/)
  assert.match(await said('tree'), /missing: bafy\w+ \(not in the file\)/)
  for (const key of ['ArrowDown', 'ArrowDown', 'ArrowDown']) await page.press(key)
  assert.equal(await chosen(), 'text: string "Grüße aus Zürich"')
  await part('inspector-block', 'block', 643)
  await page.value("[...document.querySelectorAll('#tree [aria-level=\"2\"] > .row')].find((it) => it.textContent.includes('scores')).click()")
  assert.equal(await page.value("document.querySelectorAll('#tree [aria-level=\"3\"]').length"), 201)
  await page.value("document.querySelector('#tree [aria-level=\"3\"]:last-child > .row').click()")
  assert.equal(await page.value("document.querySelectorAll('#tree [aria-level=\"3\"]').length"), 401)
  await page.value("[...document.querySelectorAll('#tree [aria-level=\"2\"] > .row')].find((it) => it.textContent.includes('scores')).click()")
  await page.value("document.querySelector('#block-cid summary').click()")
  assert.equal(await fact('block-parts', 'codec'), '0x71 (dag-cbor)')
  assert.equal(await fact('block-parts', 'digest'), `${createHash('sha256').update(sorted).digest('hex')} (32 bytes)`)
  assert.equal(await fact('block-parts', 'base16'), 'f' + cidOf(0x71, sorted).toString('hex'))
  await page.value("document.querySelector('#block-cid summary').click()")
  await dark('dark')
  await picture('inspector-block-dark')
  await dark('light')
  await page.value("document.getElementById('back').click()")
  await page.until("document.activeElement.getAttribute('aria-label') === 'map map of 2'")

  // A valid and an invalid CID as text.
  const ask = (cid) => page.value(`(() => { document.getElementById('text').value = '${cid}'; document.querySelector('#open [type=submit]').click() })()`)
  await ask('QmdfTbBqBPQ7VNxZEYEj14VmRuZBkqFbiwReogJgS1zR1n')
  await page.until("document.getElementById('parts').innerText.includes('0x70 (dag-pb)')")
  await ask('bafkqaa1')
  await page.until("document.getElementById('parts').innerText.includes('TEXT_INVALID_LETTER')")

  // A valid block, and an invalid block, whose error is shown at its byte.
  await page.choose('#file', files.block)
  await page.until("document.getElementById('facts').innerText.includes('post.cbor') && document.activeElement.getAttribute('aria-label') === 'map map of 5'")
  await page.choose('#file', files.wrong)
  await page.until("!document.getElementById('choice').hidden")
  await page.value("document.querySelector('#choices button').click()")
  await page.until("document.getElementById('error').innerText.includes('BLOCK_NOT_SHORTEST')")
  assert.equal(await page.value("document.querySelector('#hex mark.at').textContent"), '18')
  assert.match(await said('hex-range'), /the error is at byte 182$/)
  await part('inspector-error', 'block', 664)

  // A DAG-PB node: a link whose block is in the file and a link whose block isn't, and the bytes of
  // the data. Then a block that is not a DAG-PB node.
  await page.choose('#file', files.directory)
  await page.until("document.getElementById('facts').innerText.includes('directory.car') && document.querySelectorAll('#drawing [role=button]').length === 3")
  assert.deepEqual(await Promise.all(['not of their codec', 'missing'].map((term) => fact('facts', term))), ['1', '1'])
  await page.value("document.querySelector('#facts .link').click()")
  await page.until("document.activeElement.getAttribute('aria-label') === 'map map of 2'")
  await page.press('ArrowDown')
  assert.equal(await chosen(), 'Data: bytes 08 01 (2 bytes)')
  assert.deepEqual(await page.value("[...document.querySelectorAll('#hex mark')].map((it) => it.textContent)"), ['08', '01', '·', '·'])
  await page.press('ArrowDown')
  assert.equal(await chosen(), 'Links: list list of 2')
  for (const key of ['ArrowRight', 'ArrowRight', 'ArrowRight']) await page.press(key)
  assert.match(await said('tree'), /Name: "leaf.txt"\s+Tsize: 21\n/)
  await page.press('ArrowRight')
  assert.equal(await chosen(), `Hash: link ${'b' + base32(cidOf(0x55, leaf))}`)
  await page.press('Enter')
  await page.until("document.getElementById('no-tree').innerText === 'Blocks of this codec have no values here.'")
  assert.equal(await page.value("document.getElementById('tree').hidden"), true)
  await page.value("document.querySelector('#list li:last-child .link').click()")
  await page.until("document.getElementById('error').innerText.includes('PB_END')")

  // Files and folders: each entry leads to its block, and what is shown of a file is verified.
  const narrow = (width) => page.call('Emulation.setDeviceMetricsOverride', { width, height: 1000, deviceScaleFactor: 1, mobile: false })
  const entry = async (name, title) => {
    await page.value("document.getElementById('entries').replaceChildren(); document.querySelector('#facts .link').click()")
    await page.until("document.querySelectorAll('#entries li').length === 5")
    await page.value(`[...document.querySelectorAll('#entries .link')].find((it) => it.textContent === '${name}').click()`)
    await page.until(`document.getElementById('node-title').innerText === '${title} ${name}'`)
  }
  const click = async (id, until) => {
    await page.value(`document.getElementById('${id}').click()`)
    await page.until(until)
  }
  await page.choose('#file', files.unixfs)
  await page.until("document.getElementById('facts').innerText.includes('unixfs.car') && document.querySelectorAll('#list li').length === 8")
  await page.value("document.querySelector('#facts .link').click()")
  await page.until("document.querySelectorAll('#entries li').length === 5")
  assert.equal(await said('node-title'), 'Folder')
  assert.equal(await said('node-said'), '5 entries.')
  assert.deepEqual(await page.value("[...document.querySelectorAll('#entries .link')].map((it) => it.textContent)"), members.map(([name]) => name))
  await picture('inspector-folder')
  await entry('hello.txt', 'File')
  assert.equal(await fact('node-facts', 'size'), '21 bytes')
  await click('show-file', "!document.getElementById('file-text').hidden")
  assert.equal(await said('file-text'), String(leaf))
  await entry('photo.png', 'File')
  assert.deepEqual(await Promise.all(['size', 'permissions', 'changed'].map((term) => fact('node-facts', term))), [`${png.length} bytes`, '0640', '1970-01-01T00:00:01.000Z'])
  assert.equal(await page.value("document.getElementById('file-text').hidden"), true)
  await click('show-file', "document.getElementById('picture').naturalWidth === 1")
  assert.equal(await page.value("document.getElementById('picture').alt"), 'photo.png')
  await narrow(390)
  await page.value("document.getElementById('block').scrollIntoView()")
  assert.equal(await page.value('document.documentElement.scrollWidth - document.documentElement.clientWidth'), 0)
  await picture('inspector-picture')
  await narrow(1280)
  await click('save-file', "document.getElementById('told').textContent === 'Saved photo.png.'")
  for (let time = 0; time < 200 && !existsSync(`${page.downloads}/photo.png`); time++) await new Promise((resolve) => setTimeout(resolve, 50))
  assert.deepEqual(readFileSync(`${page.downloads}/photo.png`), png)
  await entry('link', 'Symbolic link')
  assert.equal(await fact('node-facts', 'leads to'), 'photo.png')
  assert.deepEqual(await page.value("['show-file', 'save-file', 'picture'].map((id) => document.getElementById(id).hidden)"), [true, true, true])
  await entry('other', 'File')
  await click('show-file', "document.getElementById('node-said').innerText === 'It is neither a picture nor a text that can be shown. You can save it.'")
  await entry('cut.txt', 'File')
  for (const id of ['show-file', 'save-file']) {
    await page.value("document.getElementById('node-said').replaceChildren()")
    await click(id, `document.getElementById('node-said').innerText.startsWith('MISSING_BLOCK: ') && document.getElementById('node-said').innerText.includes('b${base32(cidOf(0x55, gone))}')`)
  }
  assert.deepEqual(await page.value("['file-text', 'picture'].map((id) => document.getElementById(id).hidden)"), [true, true])
  // The name of a file comes back with it.
  await page.value('history.back()')
  await page.until("document.getElementById('node-title').innerText === 'Folder'")
  await page.value('history.back()')
  await page.until("document.getElementById('node-title').innerText === 'File other'")

  // Blocks of a gateway, which has other bytes for one CID, and none for another.
  const asked = []
  const gateway = createServer(({ url, headers }, response) => {
    const [, name] = url.match(/^\/ipfs\/(b[a-z2-7]+)\?format=raw$/)
    asked.push(`${name} ${headers.accept}`)
    const block = [[0x70, folderNode], ...members.map(([, codec, bytes]) => [codec, bytes]), ...halves.map((bytes) => [0x55, bytes])].find(([codec, bytes]) => `b${base32(cidOf(codec, bytes))}` === name)?.[1]
    response.writeHead(block ? 200 : 404, { 'access-control-allow-origin': '*' })
    response.end(block === binary ? 'other bytes' : block)
  })
  await new Promise((resolve) => gateway.listen(0, '127.0.0.1', resolve))
  const address = `http://127.0.0.1:${gateway.address().port}`
  const askGateway = async (cid, from) => {
    await page.value(`document.getElementById('text').value = 'b${base32(cid)}'; document.querySelector('#open button[type=submit]').click()`)
    await page.until(`document.getElementById('parts').innerText.includes('b${base32(cid)}')`)
    await page.value(`document.getElementById('gateway').value = '${from}'; document.querySelector('#fetch button').click()`)
  }
  await askGateway(cidOf(0x70, folderNode), `${address}/ipfs/`)
  await page.until("document.querySelectorAll('#entries li').length === 5")
  assert.equal(await fact('facts', 'gateway'), `${address}/`)
  assert.deepEqual(asked, [`b${base32(cidOf(0x70, folderNode))} application/vnd.ipld.raw`])
  const far = (name) => page.value(`[...document.querySelectorAll('#entries .link')].find((it) => it.textContent === '${name}').click()`)
  await far('photo.png')
  await page.until("document.getElementById('node-title').innerText === 'File photo.png'")
  await click('show-file', "document.getElementById('picture').naturalWidth === 1")
  assert.equal(asked.length, 4)
  await page.value('history.back()')
  await page.until("document.querySelectorAll('#entries li').length === 5")
  assert.equal(asked.length, 4)
  await far('other')
  await page.until("document.getElementById('failure').innerText.startsWith('The block can\\'t be shown. GATEWAY: the gateway has other bytes, for block b')")
  await far('cut.txt')
  await page.until("document.getElementById('node-title').innerText === 'File cut.txt'")
  assert.equal(await said('failure'), '')
  await click('show-file', "document.getElementById('node-said').innerText.startsWith('MISSING_BLOCK: ')")
  // A link leads to a block of the gateway.
  for (const key of ['ArrowDown', 'ArrowDown', 'ArrowRight', 'ArrowRight', 'ArrowRight', 'ArrowRight']) await page.press(key)
  assert.equal(await chosen(), `Hash: link b${base32(cidOf(0x55, leaf))}`)
  await page.press('Enter')
  await page.until("document.getElementById('block-title').textContent === 'Block of codec 0x55 (raw)'")
  await click('show-file', "!document.getElementById('file-text').hidden")
  assert.equal(await said('file-text'), String(leaf))
  await narrow(390)
  assert.equal(await page.value('document.documentElement.scrollWidth - document.documentElement.clientWidth'), 0)
  await picture('inspector-gateway')
  await narrow(1280)
  await askGateway(cidOf(0x55, gone), address)
  await page.until("document.getElementById('failure').innerText.includes('GATEWAY: the gateway has no bytes, for block b')")
  gateway.closeAllConnections()
  await new Promise((resolve) => gateway.close(resolve))
  await askGateway(cidOf(0x55, leaf), address)
  await page.until("document.getElementById('failure').innerText.includes('GATEWAY: the gateway does not answer, or does not let this page ask')")

  // Many roots and long names, in a narrow window.
  await page.call('Emulation.setDeviceMetricsOverride', { width: 360, height: 740, deviceScaleFactor: 1, mobile: false })
  await page.choose('#file', files.roots)
  await page.until("document.querySelectorAll('#list li').length === 1")
  assert.match(await fact('facts', 'roots'), /and 480 others$/)
  await page.value("document.querySelector('#list .link').click()")
  await page.until("document.activeElement.getAttribute('aria-label') === 'map map of 1'")
  assert.equal(await page.value('document.documentElement.scrollWidth - document.documentElement.clientWidth'), 0)
  await picture('inspector-narrow')
  await page.call('Emulation.setDeviceMetricsOverride', { width: 1280, height: 1000, deviceScaleFactor: 1, mobile: false })

  // A block of a million values: the page shows the first 200.
  const shown = performance.now()
  await page.choose('#file', files.integers)
  await page.until("document.getElementById('facts').innerText.includes('integers.cbor') && document.activeElement.getAttribute('aria-label') === 'list list of 1000000'")
  assert.ok(performance.now() - shown < 60000, 'a block of a million values took a minute')
  assert.equal(await page.value("document.querySelectorAll('#tree [aria-level=\"2\"]').length"), 201)

  // A block that is dropped on the page.
  await page.value("(() => { const dataTransfer = new DataTransfer(); dataTransfer.items.add(new File([Uint8Array.of(0x82, 1, 0xf5)], 'dropped.cbor')); document.body.dispatchEvent(new DragEvent('drop', { dataTransfer, bubbles: true, cancelable: true })) })()")
  await page.until("document.getElementById('facts').innerText.includes('dropped.cbor') && document.activeElement.getAttribute('aria-label') === 'list list of 2'")

  // The codec of a file that is neither a CAR nor a valid block is chosen, and can be changed. Each
  // choice is an entry of the history.
  await page.choose('#file', files.photo)
  await page.until("document.querySelectorAll('#choices li').length === 4 && document.getElementById('status').innerText.startsWith('photo.jpg is neither a CAR nor a valid block')")
  assert.match(await said('choices'), /DAG-CBOR\s+BLOCK_UNSUPPORTED: .*\(at byte 0\)\s+DAG-JSON\s+JSON_UTF8: .*\s+DAG-PB\s+PB_.*\s+raw\s+any bytes/)
  assert.deepEqual(await page.value("['summary', 'block'].map((id) => document.getElementById(id).hidden)"), [true, true])
  await picture('inspector-choice')
  await page.value("document.querySelector('#choices li:last-child button').click()")
  await page.until("document.getElementById('block-title').textContent === 'Block of codec 0x55 (raw)'")
  const photo = readFileSync(files.photo)
  const hash = () => page.value('location.hash')
  assert.equal(await hash(), `#b${base32(cidOf(0x55, photo))}`)
  assert.equal(await json(), JSON.stringify({ '/': { bytes: photo.toString('base64').replace(/=+$/, '') } }))
  await page.value("document.getElementById('codec').focus()")
  await page.value("(() => { const codec = document.getElementById('codec'); codec.value = 0x71; codec.dispatchEvent(new Event('change')) })()")
  await page.until("document.getElementById('error').innerText.includes('BLOCK_UNSUPPORTED')")
  assert.equal(await page.value('document.activeElement.id'), 'codec')
  assert.equal(await hash(), `#b${base32(cidOf(0x71, photo))}`)
  await page.value('history.back()')
  await page.until("document.getElementById('codec').value === '85' && document.getElementById('block-title').textContent === 'Block of codec 0x55 (raw)'")

  // A file of DAG-JSON, and the values of which it consists.
  await page.choose('#file', files.json)
  await page.until("document.getElementById('facts').innerText.includes('value.json') && document.activeElement.getAttribute('aria-label') === 'map map of 2'")
  assert.equal(await page.value("document.getElementById('codec').selectedOptions[0].textContent"), 'DAG-JSON')
  assert.match(await said('tree'), /a: list of 3\s+▸?b: "the content of a text"/)
  assert.equal(await json(), '{"a":[{"/":"bafkqaaa"},1.5,{"/":{"bytes":"AQID"}}],"b":"the content of a text"}')
  for (const key of ['ArrowDown', 'ArrowRight', 'ArrowDown']) await page.press(key)
  assert.equal(await chosen(), '0: link bafkqaaa (not in the file)')
  await page.until("document.getElementById('json-text').textContent === '{\"/\":\"bafkqaaa\"}'")
  assert.match(await said('json-said'), /^The value at a\/0: 16 characters$/)
  await page.press('ArrowDown')
  await page.until("document.getElementById('json-text').textContent === '1.5'")

  // The range of each value in its block, for heads of each length.
  assert.deepEqual(await page.value(`(async () => {
    const { rangeOf } = await import('/tree.js')
    const { CID, encode, tape, toJSON } = await import('/index.js')
    const sizes = [0, 23, 24, 255, 256, 65535, 65536]
    const items = [null, true, false, 1.5, CID.parse('bafkqaaa'), CID.ofBlock(0x55, new Uint8Array(1)), [[], {}], { a: [1, { b: -1 }], bb: 'x' }]
    for (const size of [...sizes, 4294967295, 4294967296, 18446744073709551615n]) items.push(size, -1n - BigInt(size))
    for (const size of sizes) items.push('x'.repeat(size), new Uint8Array(size), new Array(size).fill(7))
    const block = encode(items)
    const entries = tape(block)
    const packed = { kinds: entries.map(({ kind }) => kind), lengths: entries.map(({ length }) => length), values: entries.map(({ value }) => BigInt(value)), names: new Map() }
    let at = 1
    return items.filter((item) => {
      const [begins, ends] = rangeOf(packed, at)
      at += entries[at].kind === 9 || entries[at].kind === 10 ? entries[at].length : 1
      return toJSON(block.subarray(begins, ends)) !== toJSON(encode(item))
    }).length + (at === entries.length ? '' : ' and others')
  })()`), '0')

  // What is shown is copied and saved.
  const copied = async (id, about) => {
    await page.value(`document.getElementById('${id}').click()`)
    await page.until(`/^Copied ${about}\\.$/.test(document.getElementById('told').textContent)`)
    return page.value('navigator.clipboard.readText()')
  }
  const saved = async (id, name) => {
    await page.value(`document.getElementById('${id}').click()`)
    for (let time = 0; time < 200 && !existsSync(`${page.downloads}/${name}`); time++) await new Promise((resolve) => setTimeout(resolve, 50))
    return readFileSync(`${page.downloads}/${name}`)
  }
  assert.equal(await copied('copy-json', 'the DAG-JSON'), '1.5')
  await page.choose('#file', files.directory)
  await page.until("document.getElementById('facts').innerText.includes('directory.car') && document.querySelectorAll('#list li').length === 3")
  assert.equal(await copied('copy-cids', '3 CIDs'), [[0x70, node], [0x55, leaf], [0x70, Buffer.from([0x0a])]].map(([codec, bytes]) => `b${base32(cidOf(codec, bytes))}\n`).join(''))
  await page.value("document.querySelector('#list .link').click()")
  await page.until("document.activeElement.getAttribute('aria-label') === 'map map of 2'")
  assert.equal(await copied('copy-cid', 'the CID'), `b${base32(cidOf(0x70, node))}`)
  assert.equal(await copied('copy-hex', '\\d+ bytes in hexadecimal'), node.toString('hex'))
  const links = [`{"Hash":{"/":"b${base32(cidOf(0x55, leaf))}"},"Name":"leaf.txt","Tsize":21}`, `{"Hash":{"/":"b${base32(cidOf(0x55, gone))}"}}`]
  assert.equal(await json(), `{"Data":{"/":{"bytes":"CAE"}},"Links":[${links}]}`)
  assert.deepEqual(await saved('save-block', `b${base32(cidOf(0x70, node))}.pb`), node)
  assert.equal(String(await saved('save-json', `b${base32(cidOf(0x70, node))}.json`)), `{"Data":{"/":{"bytes":"CAE"}},"Links":[${links}]}`)
  for (const key of ['ArrowDown', 'ArrowDown', 'ArrowRight', 'ArrowRight', 'ArrowDown']) await page.press(key)
  await page.until(`document.getElementById('json-text').textContent === ${JSON.stringify(links[1])}`)
  await page.press('ArrowUp')
  await page.until(`document.getElementById('json-text').textContent === ${JSON.stringify(links[0])}`)

  // A search finds text, keys, bytes and CIDs, and a hit opens its block at the hit.
  const find = async (what) => {
    await page.value(`(() => { document.getElementById('sought').value = ${JSON.stringify(what)}; document.querySelector('#search button').click() })()`)
    await page.until("document.getElementById('stop').hidden")
    return page.value("[...document.querySelectorAll('#found li')].map((it) => [...it.children].map(({ textContent }) => textContent).join(' '))")
  }
  await page.choose('#file', files.car)
  await page.until("document.querySelectorAll('#list li').length === 7 && document.querySelectorAll('#drawing [role=button]').length === 4")
  const [names, at] = [[top, sorted, post].map((bytes) => `b${base32(cidOf(0x71, bytes))}`), (bytes, part) => bytes.indexOf(part)]
  const hits = await find('GRÜßE aus zürich')
  assert.deepEqual(hits, [])
  assert.deepEqual((await find('GRüßE AUS')).map((it) => it.split(' ').slice(0, 3).join(' ')), [`${names[1]} byte ${at(sorted, 'Grüße')}`, `${names[2]} byte ${at(post, 'Grüße')}`])
  assert.equal(await page.value("document.querySelector('#found mark').textContent"), 'Grüße aus')
  assert.equal(await said('found-said'), '2 hits.')
  await picture('inspector-search')
  assert.deepEqual((await find('0x' + cidOf(0x55, leaf).toString('hex'))).length, 3)
  assert.deepEqual((await find(names[1])).map((it) => it.split(' ').slice(0, 3).join(' ')), [`${names[1]} its CID`, `${names[0]} byte ${at(top, cidOf(0x71, sorted))}`])
  assert.deepEqual(await find(names[1].slice(-10, -2)), [`${names[1]} its CID`])
  await find('zürich')
  await page.value("document.querySelector('#found .link').click()")
  await page.until("document.activeElement.getAttribute('aria-label') === 'text: string \"Grüße aus Zürich\"'")
  assert.equal(await page.value("[...document.querySelectorAll('#hex mark')].map((it) => it.textContent).filter((it) => it.length === 2).join('')"), Buffer.from('Zürich').toString('hex'))

  // Back leads to the block before and to the file, forward to the block, and the focus comes along.
  assert.equal(await hash(), `#${names[1]}`)
  await page.press('ArrowUp')
  await page.value("document.querySelector('#facts .link').click()")
  await page.until(`location.hash === '#${names[0]}'`)
  await page.value("document.getElementById('back').click()")
  await page.until("document.activeElement.getAttribute('aria-label') === 'text: string \"Grüße aus Zürich\"'")
  await page.value('history.back()')
  await page.until("location.hash === '' && document.getElementById('block').hidden")
  assert.equal(await page.value("document.activeElement.closest('#found') !== null"), true)
  await page.value('history.forward()')
  await page.until(`location.hash === '#${names[1]}' && !document.getElementById('block').hidden`)

  const leave = async () => {
    await page.call('Page.navigate', { url: 'about:blank' })
    await page.until("document.readyState === 'complete' && location.href === 'about:blank'")
  }
  // The page shows the same block when the user comes back to it, and when it is loaded again and
  // its file is opened.
  const isSame = "document.activeElement.getAttribute('aria-label') === 'text: string \"Grüße aus Zürich\"' && !document.getElementById('back').hidden"
  const { currentIndex, entries } = await page.call('Page.getNavigationHistory')
  await leave()
  await page.call('Page.navigateToHistoryEntry', { entryId: entries[currentIndex].id })
  await page.until(isSame)
  await page.value('void setTimeout(() => location.reload(), 100)')
  await page.until(`document.getElementById('status').textContent === 'Open the file that has the block ${names[1]}.'`)
  await page.choose('#file', files.car)
  await page.until(isSame)
  // Where the browser has handles of files, the page opens the file again by itself. The handle here
  // is of the browser's own files, of which nobody is asked for a permission.
  await page.value(`(async () => {
    const handle = await (await navigator.storage.getDirectory()).getFileHandle('kept.car', { create: true })
    const writer = await handle.createWritable()
    await writer.write(Uint8Array.from(atob('${car.toString('base64')}'), (letter) => letter.charCodeAt(0)))
    await writer.close()
    window.showOpenFilePicker = async () => [handle]
    document.getElementById('file').click()
  })()`)
  await page.until("document.getElementById('facts').innerText.includes('kept.car') && document.querySelectorAll('#list li').length === 7")
  await page.value("document.querySelector('#list li:nth-child(2) .link').click()")
  await page.until("document.activeElement.getAttribute('aria-label') === 'map map of 5'")
  await page.value('window.isOld = true, void setTimeout(() => location.reload(), 100)')
  await page.until("window.isOld === undefined && document.getElementById('facts').innerText.includes('kept.car') && document.activeElement.getAttribute('aria-label') === 'map map of 5'")
  assert.equal(await hash(), `#${names[1]}`)
  // A link shows the parts of its CID until the file is opened. Several blocks can have one CID.
  const other = `${names[1]}@${car.indexOf(sorted)}`
  await page.value("indexedDB.deleteDatabase('inspector')")
  await leave()
  await page.call('Page.navigate', { url: `${server.url}#${other}` })
  await page.until("document.body.dataset.ready === 'true' && document.getElementById('parts').innerText.includes('0x71 (dag-cbor)')")
  assert.equal(await said('status'), `Open the file that has the block ${names[1]}.`)
  await page.choose('#file', files.car)
  await page.until(`document.activeElement.getAttribute('aria-label') === 'map map of 5' && location.hash === '#${names[1]}' && document.getElementById('status').innerText === 'tree.car is read.'`)
  assert.equal(await page.value("document.getElementById('cid').hidden"), true)

  // The parts of a CID are below its field. Closing them gives the focus back.
  await page.value("[...document.querySelectorAll('#tree .row')].find((it) => it.textContent.includes('missing')).click()")
  await page.press('Enter')
  await page.until("document.activeElement.id === 'cid-title'")
  assert.equal(await page.value("document.getElementById('open').nextElementSibling.id"), 'cid')
  assert.equal(await page.value("document.getElementById('text').value"), `b${base32(cidOf(0x71, gone))}`)
  await page.value("document.getElementById('cid-close').click()")
  assert.match(await chosen(), /^missing: link/)

  // Nothing in a file becomes an element of the page.
  await page.choose('#file', files.markup)
  await page.until("document.getElementById('facts').innerText.includes('onerror') && document.activeElement.getAttribute('aria-label') === 'map map of 1'")
  assert.equal((await find('onerror')).length, 2)
  assert.match(await json(), /^{"<img/)
  assert.equal(await page.value("document.querySelectorAll('img:not(#picture)').length"), 0)

  // Back also leads to the file before. The second of two blocks with one CID has its offset in the
  // address.
  await page.value('history.back()')
  await page.until(`document.getElementById('facts').innerText.includes('tree.car') && document.activeElement.getAttribute('aria-label') === 'map map of 5' && location.hash === '#${names[1]}'`)
  await page.choose('#file', files.twice)
  await page.until("document.getElementById('facts').innerText.includes('twice.car') && document.querySelectorAll('#list li').length === 2")
  assert.equal(await hash(), '')
  for (const [row, fragment] of [[1, names[1]], [2, `${names[1]}@${readFileSync(files.twice).lastIndexOf(sorted)}`]]) {
    await page.value(`document.querySelector('#list li:nth-child(${row}) .link').click()`)
    await page.until(`location.hash === '#${fragment}'`)
  }
  await page.value('history.back()')
  await page.until(`location.hash === '#${names[1]}'`)
  await page.value('history.forward()')
  await page.until("location.hash.includes('@') && history.state.depth === 2")

  // A CAR that ends too early.
  await page.choose('#file', files.cut)
  await page.until("document.getElementById('failure').innerText.includes('CAR_UNEXPECTED_END')")
  assert.equal(await fact('facts', 'blocks'), '6')
  assert.match(await said('failure'), /up to an error/)

  // Each element that can have the focus has a name, for screen readers.
  await page.choose('#file', files.car)
  await page.until("document.querySelectorAll('#list li').length === 7")
  const { nodes } = await page.call('Accessibility.getFullAXTree')
  for (const { ignored, role, name, properties = [] } of nodes) {
    const focusable = properties.some((property) => property.name === 'focusable' && property.value.value)
    if (!ignored && focusable && role.value !== 'RootWebArea') assert.ok(name?.value, `a ${role.value} without a name`)
  }

  // The Tab key reaches the input for files, the CID, the roots, the search, the graph and the
  // list, in this order.
  await page.value('document.activeElement.blur(), scrollTo(0, 0)')
  const path = []
  for (let step = 0; step < 20; step++) {
    await page.press('Tab')
    path.push(await page.value("document.activeElement.id || document.activeElement.closest('form, section')?.id"))
  }
  assert.deepEqual(path.filter((it, at) => it !== path[at - 1]), ['file', 'text', 'open', 'summary', 'sought', 'search', 'graph', 'which', 'copy-cids', 'save-cids', 'blocks'])

  // A large CAR: the page continues to respond while the worker reads it.
  writeLarge()
  await page.value("(() => { window.gap = 0; let last = performance.now(); window.timer = setInterval(() => { const now = performance.now(); window.gap = Math.max(window.gap, now - last); last = now; if (document.getElementById('progress').value > 0) window.progressed = true }, 10) })()")
  const begin = performance.now()
  await page.choose('#file', files.large)
  await page.until("document.getElementById('facts').innerText.includes('large.car')", 240)
  const seconds = ((performance.now() - begin) / 1000).toFixed(1)
  const gap = await page.value('clearInterval(window.timer), window.gap')
  assert.equal(await fact('facts', 'wrong digests'), '0')
  assert.equal(await page.value('window.progressed === true'), true)
  assert.ok(gap < 5000, `the page stood still for ${gap} ms`)
  await page.value("document.getElementById('after').click()")
  await page.until("document.getElementById('range').innerText.startsWith('101 to 200')")
  // A search and a copy of the large CAR: the page continues to respond.
  await page.value("(() => { window.gap = 0; let last = performance.now(); window.timer = setInterval(() => { const now = performance.now(); window.gap = Math.max(window.gap, now - last); last = now }, 10) })()")
  const sought = performance.now()
  assert.deepEqual(await find('what is not in any block'), [])
  const searched = ((performance.now() - sought) / 1000).toFixed(1)
  assert.equal((await find('a record')).length, 1000)
  assert.equal(await said('found-said'), 'The first 1,000 hits. The rest of the file is not searched.')
  await page.value("document.getElementById('copy-cids').click()")
  await page.until("/^(Copied|[0-9,]+ bytes are too long)/.test(document.getElementById('told').textContent)")
  const searchGap = await page.value('clearInterval(window.timer), window.gap')
  assert.ok(searchGap < 5000, `the page stood still for ${searchGap} ms`)
  console.log(`inspector: a search of ${MEGABYTES} MB in ${searched} s, in which the page stood still for ${Math.round(searchGap)} ms at most`)
  console.log(`inspector: a CAR of ${MEGABYTES} MB and ${await fact('facts', 'blocks')} blocks in ${seconds} s, in which the page stood still for ${Math.round(gap)} ms at most`)
  assert.deepEqual(page.problems, [])
} finally {
  await page.close()
  server.close()
}

// Without a server the page shows that it needs a server. Until its style sheet is loaded, all text
// is visible.
const unserved = await browse(pathToFileURL(`${inspector}/index.html`).href)
try {
  await unserved.until("document.readyState === 'complete' && getComputedStyle(document.getElementById('unserved')).visibility === 'visible'")
  assert.match(await unserved.value("document.getElementById('unserved').innerText"), /needs a server of files/)
} finally {
  await unserved.close()
}
