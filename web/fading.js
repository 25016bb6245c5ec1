// A soft change from one picture to another, if the browser has View Transitions and the user hasn't asked for less
// motion.

export const isStill = matchMedia('(prefers-reduced-motion: reduce)');

// Makes the call, now or before the next frame, and lets the picture before it fade away.
export function fade(call) {
  if (isStill.matches || !document.startViewTransition) return call();
  const transition = document.startViewTransition(call);
  // (both promises are rejected if another change begins before this one ends)
  for (const promise of [transition.ready, transition.finished]) promise.catch(() => {});
  return transition.updateCallbackDone;
}

// Waits until the next frame has been drawn.
export const afterFrame = () => new Promise(done => requestAnimationFrame(() => setTimeout(done)));
