// Keeps the handle of the open file, so that the page can open it when it is loaded again. The
// content of the file is not kept. Only some browsers have handles of files.
const DAY = 86400000

/** Returns the key of this tab, which begins with the time at which the tab was first used. */
function tab () {
  const key = sessionStorage.getItem('tab') ?? `${Date.now()} ${Math.random()}`
  sessionStorage.setItem('tab', key)
  return key
}

/** Returns the result of the request that `work` makes of the store of handles. */
function withStore (mode, work) {
  return new Promise((resolve, reject) => {
    const opening = indexedDB.open('inspector', 1)
    opening.onupgradeneeded = () => opening.result.createObjectStore('handles')
    opening.onerror = () => reject(opening.error)
    opening.onsuccess = () => {
      const { result: database } = opening
      const transaction = database.transaction('handles', mode)
      const request = work(transaction.objectStore('handles'))
      const end = (settle, name) => () => {
        database.close()
        settle(name === 'result' ? request.result : transaction.error)
      }
      transaction.oncomplete = end(resolve, 'result')
      transaction.onabort = end(reject, 'error')
    }
  })
}

/** Keeps the handle of this tab's file, or removes it. Removes those of tabs from another day. */
export async function keep (handle) {
  try {
    await withStore('readwrite', (handles) => {
      handles.delete(IDBKeyRange.upperBound(String(Date.now() - DAY)))
      return handle ? handles.put(handle, tab()) : handles.delete(tab())
    })
  } catch {
    // Some browsers keep nothing, for example in a private window.
  }
}

/** Returns the handle of this tab's file, or undefined. */
export async function kept () {
  try {
    return await withStore('readonly', (handles) => handles.get(tab()))
  } catch {
    return undefined
  }
}
