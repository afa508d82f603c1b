// Loads the package under test, from the folder that PACKAGE names or from bindings/js.
import { resolve } from 'node:path'
import { pathToFileURL } from 'node:url'

const folder = resolve(process.env.PACKAGE ?? new URL('..', import.meta.url).pathname)
const urlOf = (file) => pathToFileURL(`${folder}/src/${file}`)
const load = (file) => import(urlOf(file))

/** Loads a file of the package again, with a separate state. */
export const fresh = (file) => import(`${urlOf(file)}?fresh`)

export const kombilad = await load('node.js')
export const core = await load('core.js')
export const errors = await load('errors.js')

/**
 * The options that skip a test if the library does not have tapes. Values and the headers of CAR
 * files need tapes.
 */
export const needsTape = { skip: core.run((instance) => instance.calls.kombilad_tape === undefined) && 'the library has no tapes' }
