// Controls headless Chromium through its debugging pipe, and serves files.
import { spawn } from 'node:child_process'
import { createReadStream } from 'node:fs'
import { mkdtemp, rm, stat } from 'node:fs/promises'
import { createServer } from 'node:http'
import { tmpdir } from 'node:os'
import { extname, join, normalize } from 'node:path'

const TYPES = { '.html': 'text/html; charset=utf-8', '.js': 'text/javascript', '.css': 'text/css', '.wasm': 'application/wasm' }

/** Serves the files of a folder. Returns the URL of the server, and a function that closes it. */
export async function serve (folder) {
  const server = createServer(async ({ url }, response) => {
    const path = join(folder, normalize(new URL(url, 'http://x').pathname.replace(/\/$/, '/index.html')))
    try {
      if (!(await stat(path)).isFile()) throw new Error()
      response.writeHead(200, { 'content-type': TYPES[extname(path)] ?? 'application/octet-stream' })
      createReadStream(path).pipe(response)
    } catch {
      response.writeHead(404).end()
    }
  })
  await new Promise((resolve) => server.listen(0, '127.0.0.1', resolve))
  return { url: `http://127.0.0.1:${server.address().port}/`, close: () => server.close() }
}

/** Opens a page in a new Chromium. */
export async function browse (url, width = 1280, height = 1000) {
  const profile = await mkdtemp(join(tmpdir(), 'kombilad-'))
  const words = ['--headless=new', '--no-sandbox', '--disable-gpu', '--disable-dev-shm-usage', '--no-first-run', '--disable-features=BackForwardCache', '--remote-debugging-pipe', `--user-data-dir=${profile}`, `--window-size=${width},${height}`]
  const browser = spawn('chromium', words, { stdio: ['ignore', 'ignore', 'ignore', 'pipe', 'pipe'] })
  const [, , , input, output] = browser.stdio
  const waiting = new Map()
  const problems = []
  let last = 0
  let kept = ''
  output.on('data', (data) => {
    kept += data
    for (let end; (end = kept.indexOf('\0')) >= 0; kept = kept.slice(end + 1)) {
      const message = JSON.parse(kept.slice(0, end))
      if (message.id) {
        const { method, resolve, reject } = waiting.get(message.id)
        waiting.delete(message.id)
        if (message.error) reject(new Error(`${method}: ${message.error.message}`))
        else resolve(message.result)
      } else if (message.method === 'Runtime.exceptionThrown') {
        problems.push(message.params.exceptionDetails.exception?.description ?? message.params.exceptionDetails.text)
      } else if (message.method === 'Log.entryAdded' && message.params.entry.level === 'error') {
        problems.push(`${message.params.entry.text} ${message.params.entry.url ?? ''}`)
      }
    }
  })
  const send = (method, params = {}, sessionId) => new Promise((resolve, reject) => {
    waiting.set(++last, { method, resolve, reject })
    input.write(JSON.stringify({ id: last, method, params, sessionId }) + '\0')
  })
  const { targetId } = await send('Target.createTarget', { url: 'about:blank' })
  const { sessionId } = await send('Target.attachToTarget', { targetId, flatten: true })
  const call = (method, params) => send(method, params, sessionId)
  for (const name of ['Page', 'Runtime', 'DOM', 'Log', 'Accessibility']) await call(`${name}.enable`)
  await call('Emulation.setDeviceMetricsOverride', { width, height, deviceScaleFactor: 1, mobile: false })
  // The page may copy, and what it saves goes to the folder.
  const downloads = join(profile, 'downloads')
  await send('Browser.grantPermissions', { permissions: ['clipboardReadWrite', 'clipboardSanitizedWrite'] })
  await send('Browser.setDownloadBehavior', { behavior: 'allow', downloadPath: downloads })
  await call('Emulation.setFocusEmulationEnabled', { enabled: true })

  /**
   * Returns the value of an expression in the page, which runs like the work for a click. Throws if
   * the expression throws.
   */
  async function value (expression) {
    const { result, exceptionDetails } = await call('Runtime.evaluate', { expression, awaitPromise: true, returnByValue: true, userGesture: true })
    if (exceptionDetails) throw new Error(`${expression}: ${exceptionDetails.exception?.description ?? exceptionDetails.text}`)
    return result.value
  }

  await call('Page.navigate', { url })
  return {
    call,
    value,
    problems,
    downloads,
    async until (expression, seconds = 120) {
      for (const end = Date.now() + seconds * 1000; Date.now() < end; await new Promise((resolve) => setTimeout(resolve, 50))) {
        if (await value(expression).catch(() => false)) return
      }
      throw new Error(`not within ${seconds} s: ${expression}; the page says: ${await value('document.body.innerText.slice(0, 2000)')}`)
    },
    async choose (selector, file) {
      const { root } = await call('DOM.getDocument')
      const { nodeId } = await call('DOM.querySelector', { nodeId: root.nodeId, selector })
      await call('DOM.setFileInputFiles', { nodeId, files: [file] })
    },
    async press (key) {
      const codes = { ArrowDown: 40, ArrowUp: 38, ArrowLeft: 37, ArrowRight: 39, Enter: 13, Home: 36, End: 35, Tab: 9 }
      const event = { key, code: key, windowsVirtualKeyCode: codes[key] }
      await call('Input.dispatchKeyEvent', { type: 'rawKeyDown', ...event })
      await call('Input.dispatchKeyEvent', { type: 'keyUp', ...event })
    },
    async screenshot (clip) { return Buffer.from((await call('Page.captureScreenshot', { format: 'png', captureBeyondViewport: true, clip })).data, 'base64') },
    async close () {
      await send('Browser.close').catch(() => {})
      await new Promise((resolve) => browser.exitCode === null ? browser.on('exit', resolve) : resolve())
      await rm(profile, { recursive: true, force: true, maxRetries: 5 })
    }
  }
}
