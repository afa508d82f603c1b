// Tests the heap without the library, in the module that HEAP names. Allocates random blocks, and
// checks all of their bytes.
import assert from 'node:assert/strict'
import { readFileSync } from 'node:fs'
import { describe, test } from 'node:test'

const MEBIBYTE = 1 << 20

function random (seed) {
  return (below) => {
    seed = Math.imul(seed ^ seed >>> 15, 0x2c1b3c6d) + 0x6d2b79f5 | 0
    return ((seed ^ seed >>> 14) >>> 0) % below
  }
}

describe('the heap', { skip: process.env.HEAP === undefined && 'HEAP names no module' }, () => {
  const module = new WebAssembly.Module(readFileSync(process.env.HEAP ?? '/dev/null'))
  const start = () => {
    const { memory, ...calls } = new WebAssembly.Instance(module, {}).exports
    return { ...calls, bytes: () => new Uint8Array(memory.buffer), size: () => memory.buffer.byteLength }
  }

  test('is above the stack, so that a stack overflow traps', () => {
    assert.equal(start().__global_base.value, 65536)
  })

  test('keeps blocks separate, aligned and unchanged', () => {
    const heap = start()
    const choose = random(1)
    const blocks = new Map()
    let pattern = 0
    const room = heap.kombilad_wasm_room(1000)
    heap.bytes().fill(0xee, room, room + 1000)
    const write = (at, from, size) => {
      const block = { size, pattern: ++pattern & 255 }
      heap.bytes().fill(block.pattern, at + from, at + size)
      return block
    }
    const intact = (at, { size, pattern }) => assert.ok(heap.bytes().subarray(at, at + size).every((byte) => byte === pattern), `${size} bytes at ${at}`)
    for (let step = 0; step < 20000; step++) {
      const [at, block] = [...blocks][choose(blocks.size || 1)] ?? []
      const way = choose(10)
      if (at === undefined || (way < 4 && blocks.size < 40)) {
        const size = choose(choose(10) === 0 ? 20000 : 100)
        const made = heap.malloc(size)
        assert.ok(made !== 0 && made % 16 === 0 && !blocks.has(made) && made >= room + 1000)
        for (const [other, { size: length }] of blocks) assert.ok(made + size <= other || other + length <= made)
        blocks.set(made, write(made, 0, size))
      } else if (way < 7) {
        const size = choose(2) ? block.size * 2 + 1 : choose(block.size + 1)
        if (size > 1e6) continue
        const kept = Math.min(size, block.size)
        const made = heap.realloc(at, size)
        assert.ok(made !== 0 && made % 16 === 0)
        intact(made, { ...block, size: kept })
        blocks.delete(at)
        for (const [other, { size: length }] of blocks) assert.ok(made + size <= other || other + length <= made)
        blocks.set(made, write(made, 0, size))
      } else {
        intact(at, block)
        heap.free(at)
        blocks.delete(at)
      }
      assert.equal(heap.kombilad_wasm_live(), blocks.size)
      if (step % 100 === 0) for (const [at, block] of blocks) intact(at, block)
      if (step % 500 === 0) for (const at of [...blocks.keys()]) { heap.free(at); blocks.delete(at) }
    }
    assert.ok(heap.bytes().subarray(room, room + 1000).every((byte) => byte === 0xee))
    assert.ok(heap.size() < 64 * MEBIBYTE, 'what was freed is used again')
  })

  test('reuses the last block when it is freed, and all memory when no block is left', () => {
    const heap = start()
    const first = heap.malloc(100)
    const second = heap.malloc(100)
    heap.free(second)
    // The first is the last one again.
    for (const size of [5000, 100]) assert.equal(heap.realloc(first, size), first)
    assert.equal(heap.malloc(50), second)
    assert.equal(heap.realloc(second, 5000), second)
    heap.free(first)
    heap.free(second)
    assert.equal(heap.malloc(1), first)
    heap.free(first)
    const { bytes, size } = heap
    const before = size()
    for (let round = 0; round < 1000; round++) {
      const [a, b] = [heap.malloc(MEBIBYTE), heap.malloc(MEBIBYTE)]
      heap.free(a)
      heap.free(b)
    }
    assert.ok(size() <= before + 4 * MEBIBYTE)
    assert.ok(bytes().length > 0)
  })

  test('reuses what is freed after a block that stays', () => {
    const heap = start()
    const kept = heap.malloc(1000)
    heap.bytes().fill(7, kept, kept + 1000)
    const before = heap.size()
    for (let round = 0; round < 1000; round++) {
      const made = [0, 1, 2].map(() => heap.malloc(MEBIBYTE / 4))
      // In any order, and one after it has moved.
      const moved = heap.realloc(made[round % 2], MEBIBYTE / 2)
      for (const at of [made[2], moved, made[1 - round % 2]]) heap.free(at)
    }
    assert.ok(heap.size() <= before + 4 * MEBIBYTE)
    assert.ok(heap.bytes().subarray(kept, kept + 1000).every((byte) => byte === 7))
    assert.equal(heap.kombilad_wasm_live(), 1)
  })

  test('reuses what is freed before a block that stays', () => {
    const heap = start()
    let [old, small] = [heap.malloc(MEBIBYTE), heap.malloc(1)]
    const before = heap.size()
    // Each block is made before the one of the last round is freed.
    for (let round = 0; round < 1000; round++) {
      const made = heap.malloc(MEBIBYTE - round)
      heap.free(old)
      heap.free(small)
      small = heap.malloc(100 + round % 3)
      old = made
    }
    assert.ok(heap.size() <= before + 4 * MEBIBYTE)
    for (const block of [old, small]) heap.free(block)
    assert.notEqual(heap.kombilad_wasm_room(8 * MEBIBYTE), 0)
  })

  test('makes one block of free blocks that lie side by side, and several of one', () => {
    for (const order of [[0, 1, 2], [0, 2, 1], [1, 0, 2], [1, 2, 0], [2, 0, 1], [2, 1, 0]]) {
      const heap = start()
      const made = [0, 1, 2].map(() => heap.malloc(112))
      const kept = heap.malloc(16)
      for (const each of order) heap.free(made[each])
      // A block that is too long for them.
      const long = heap.malloc(3 * 112 + 2 * 16 + 1)
      assert.ok(long > kept)
      assert.equal(heap.malloc(3 * 112 + 2 * 16), made[0])
      // It is shortened where it is, and what follows it is free.
      assert.equal(heap.realloc(made[0], 112), made[0])
      assert.deepEqual([heap.malloc(112), heap.malloc(112)], [made[1], made[2]])
      assert.ok(heap.malloc(1) > long)
      assert.equal(heap.kombilad_wasm_live(), 6)
    }
    // Blocks that are too short are passed over.
    const heap = start()
    const made = Array.from({ length: 5 }, (_, each) => [heap.malloc(200 - each * 16), heap.malloc(16)][0])
    for (const block of made) heap.free(block)
    assert.equal(heap.malloc(200), made[0])
  })

  test('does not exceed its bound, and returns 0 instead', () => {
    const heap = start()
    heap.kombilad_wasm_bound(8 * MEBIBYTE)
    const held = []
    for (let made; (made = heap.malloc(MEBIBYTE)) !== 0;) held.push(made)
    assert.ok(held.length >= 5 && held.length <= 7)
    assert.ok(heap.size() <= 8 * MEBIBYTE)
    heap.bytes().fill(7, held[0], held[0] + MEBIBYTE)
    assert.equal(heap.realloc(held[0], 3 * MEBIBYTE), 0)
    assert.equal(heap.realloc(held.at(-1), 4 * MEBIBYTE), 0)
    assert.ok(heap.bytes().subarray(held[0], held[0] + MEBIBYTE).every((byte) => byte === 7), 'a block that could not grow is as it was')
    assert.equal(heap.kombilad_wasm_live(), held.length)
    assert.equal(heap.kombilad_wasm_room(10), 0, 'no room while there are blocks')
    for (const block of held) heap.free(block)
    assert.equal(heap.kombilad_wasm_room(16 * MEBIBYTE), 0)
    assert.notEqual(heap.kombilad_wasm_room(7 * MEBIBYTE), 0)
    assert.notEqual(heap.malloc(16), 0)
    for (const size of [0xffffffff, 0xfffffff0, 0x80000000]) assert.equal(heap.malloc(size), 0)
  })

  test('returns 0 if the host has no more memory', () => {
    // The module limits its memory to 16 MiB, which is below the bound of the heap.
    const heap = start()
    let held = 0
    while (heap.malloc(MEBIBYTE) !== 0) assert.ok(++held < 16)
    assert.ok(held >= 13)
    assert.equal(heap.kombilad_wasm_live(), held)
  })
})
