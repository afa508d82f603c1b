// Finds what is typed among the items of `index.js`, and shows it below the input.
/* global ENTRIES */
const MOST = 40
const input = document.getElementById('search')
const found = document.getElementById('found')
let chosen = -1

/** How well an entry fits: lower is better, and undefined is not at all. */
function rank ([path, , , said], words) {
  const name = path.slice(path.lastIndexOf(':') + 1).toLowerCase()
  const lower = path.toLowerCase()
  let sum = path.length / 1000
  for (const word of words) {
    if (name === word) sum += 0
    else if (name.startsWith(word)) sum += 1
    else if (name.includes(word)) sum += 2
    else if (lower.includes(word)) sum += 3
    else if (said.toLowerCase().includes(word)) sum += 6
    else return undefined
  }
  return sum
}

function entry ([path, kind, href, said]) {
  const line = document.createElement('li')
  const link = document.createElement('a')
  const name = document.createElement('code')
  const note = document.createElement('small')
  link.href = href
  name.textContent = path
  note.textContent = ` ${kind}. ${said}`
  link.append(name, note)
  line.append(link)
  return line
}

function choose (place) {
  const links = found.querySelectorAll('a')
  if (links.length === 0) return
  if (chosen >= 0) links[chosen].classList.remove('chosen')
  chosen = (place + links.length) % links.length
  links[chosen].classList.add('chosen')
  links[chosen].scrollIntoView({ block: 'nearest' })
}

function search () {
  const words = input.value.toLowerCase().split(/[\s:]+/).filter((word) => word !== '')
  const fits = words.length === 0 ? [] : ENTRIES
    .map((each) => [rank(each, words), each])
    .filter(([sum]) => sum !== undefined)
    .sort(([a], [b]) => a - b)
    .slice(0, MOST)
  found.replaceChildren(...fits.map(([, each]) => entry(each)))
  if (words.length > 0 && fits.length === 0) {
    const line = document.createElement('li')
    line.className = 'faint'
    line.textContent = 'No item and no definition has these words.'
    found.append(line)
  }
  found.hidden = words.length === 0
  chosen = -1
}

input.addEventListener('input', search)
input.addEventListener('focus', search)
input.addEventListener('keydown', (event) => {
  if (event.key === 'ArrowDown') choose(chosen + 1)
  else if (event.key === 'ArrowUp') choose(chosen - 1)
  else if (event.key === 'Escape') found.hidden = true
  else if (event.key === 'Enter') (found.querySelector('a.chosen') ?? found.querySelector('a'))?.click()
  else return
  event.preventDefault()
})
document.addEventListener('keydown', (event) => {
  if (event.key !== '/' || document.activeElement === input) return
  input.focus()
  event.preventDefault()
})
document.addEventListener('click', ({ target }) => { if (!target.closest('.search')) found.hidden = true })
