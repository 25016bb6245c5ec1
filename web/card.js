// The checksums on the card. A packed page contains all of its parts; a page on a server knows only its module.

const $ = id => document.getElementById(id);
const hex = bytes => Array.from(new Uint8Array(bytes), byte => byte.toString(16).padStart(2, '0')).join('');

// The script, the style and the worker of a packed page, exactly as the browser gets them.
function textsOf() {
  const isPacked = Boolean($('packed-worker'));
  const text = part => isPacked ? document.querySelector(part).textContent : '';
  return { scripts: text('script[type=module]'), style: text('style'), worker: text('#packed-worker') };
}

export async function showSums(module) {
  if (!crypto.subtle) return;
  const texts = Object.entries(textsOf()).filter(([, text]) => text);
  const parts = texts.map(([name, text]) => ({ name, bytes: new TextEncoder().encode(text) }));
  for (const { name, bytes } of [{ name: 'module', bytes: module }, ...parts]) {
    $(`sum-${name}`).textContent = hex(await crypto.subtle.digest('SHA-256', bytes));
  }
}
