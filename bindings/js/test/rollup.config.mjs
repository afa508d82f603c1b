// Makes a bundle for a browser with Rollup, which Vite uses. The plugin below finds packages, like
// @rollup/plugin-node-resolve. Debian's package of that plugin needs Debian's own Node.
import { readFileSync } from 'node:fs'
import { resolve } from 'node:path'

const packages = {
  name: 'packages',
  resolveId (source) {
    if (/^[./]/.test(source)) return null
    const folder = resolve('node_modules', source)
    return resolve(folder, JSON.parse(readFileSync(`${folder}/package.json`, 'utf8')).exports['.'].default)
  }
}

export default {
  input: './bundled.js',
  output: { file: 'bundle/rollup.js', format: 'iife' },
  plugins: [packages]
}
