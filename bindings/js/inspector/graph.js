// Draws the graph of a CAR, with a column for each step from the roots and a line for each link.
const WIDTH = 152
const HEIGHT = 26
const ACROSS = 208
const DOWN = 36
const MARGIN = 8
const SVG = 'http://www.w3.org/2000/svg'

function make (name, properties, ...children) {
  const made = document.createElementNS(SVG, name)
  for (const [key, value] of Object.entries(properties)) made.setAttribute(key, value)
  made.append(...children)
  return made
}

const shorten = (text) => text.length > 16 ? `${text.slice(0, 8)}…${text.slice(-6)}` : text

/**
 * Draws the blocks and the links between them in the element `at`. Calls `follow` with a block when
 * the user chooses it.
 */
export function showGraph (at, { nodes, edges }, follow) {
  const columns = []
  const places = nodes.map(({ depth }) => {
    const row = columns[depth] ?? 0
    columns[depth] = row + 1
    return [MARGIN + depth * ACROSS, MARGIN + row * DOWN]
  })
  const lines = edges.map(([from, to]) => {
    const steps = nodes[to].depth - nodes[from].depth
    // A link to a later column begins at the right of its block and ends at the left of the other
    // block. A link to an earlier column begins at the left and ends at the right. A link within a
    // column bends out of it.
    const left = places[from][0] + (steps < 0 ? 0 : WIDTH)
    const right = places[to][0] + (steps > 0 ? 0 : WIDTH)
    const [top, bottom] = [places[from][1] + HEIGHT / 2, places[to][1] + HEIGHT / 2]
    const bend = steps === 0 ? ACROSS - WIDTH : (right - left) / 2
    return make('path', { d: `M${left} ${top}C${left + bend} ${top} ${right + (steps === 0 ? bend : -bend)} ${bottom} ${right} ${bottom}`, 'marker-end': 'url(#arrow)' })
  })
  const arrow = make('defs', {}, make('marker', { id: 'arrow', viewBox: '0 0 8 8', refX: 8, refY: 4, markerWidth: 6, markerHeight: 6, orient: 'auto-start-reverse' }, make('path', { d: 'M0 0L8 4L0 8z' })))
  const boxes = nodes.map((node, number) => {
    const [left, top] = places[number]
    const said = node.index === undefined ? 'not in the file' : node.unreadable ? `not of codec ${node.codec}` : node.wrong ? 'wrong digest' : node.codec
    const box = make('g', { role: 'button', tabindex: number ? -1 : 0, 'aria-label': `${node.text}, ${said}`, class: node.index === undefined ? 'missing' : node.unreadable || node.wrong ? 'bad' : '' },
      make('title', {}, `${node.text}, ${said}`),
      make('rect', { x: left, y: top, width: WIDTH, height: HEIGHT, rx: 5 }),
      make('text', { x: left + WIDTH / 2, y: top + HEIGHT / 2 }, shorten(node.text)))
    box.addEventListener('click', () => follow(node))
    return box
  })
  // Links within the last column bend out of it, and need room on its right.
  const end = (place, size) => Math.max(...places.map((it) => it[place])) + size + (place ? MARGIN : ACROSS - WIDTH)
  const [width, height] = nodes.length ? [end(0, WIDTH), end(1, HEIGHT)] : [0, 0]
  const drawing = make('svg', { width, height, viewBox: `0 0 ${width} ${height}`, role: 'group', 'aria-labelledby': 'graph-title' }, arrow, ...lines, ...boxes)

  /**
   * The block that each arrow key moves to: the next or the previous block of the drawing, the
   * first block that this one links to, or the first block that links to it.
   */
  const steps = {
    ArrowDown: (number) => number + 1,
    ArrowUp: (number) => number - 1,
    ArrowRight: (number) => edges.find(([from]) => from === number)?.[1],
    ArrowLeft: (number) => edges.find(([, to]) => to === number)?.[0]
  }
  drawing.addEventListener('keydown', (event) => {
    const number = boxes.indexOf(event.target)
    if (number < 0 || event.altKey || event.ctrlKey || event.metaKey) return
    const next = boxes[steps[event.key]?.(number)]
    if (event.key === 'Enter' || event.key === ' ') follow(nodes[number])
    else if (next === undefined) return
    event.preventDefault()
    if (next === undefined) return
    boxes[number].setAttribute('tabindex', -1)
    next.setAttribute('tabindex', 0)
    next.focus()
  })
  at.replaceChildren(drawing)
}
