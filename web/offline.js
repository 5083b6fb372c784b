// Keeps the page of an installed app: it is asked for once, and again where there is a network; without one the kept page is given.
"use strict";

const NAME = "calc";
const FILES = ["./", "calc.webmanifest", "icon.svg"];

/** What the server gives, kept; where it gives nothing, what was kept of it. */
async function given(request) {
  const kept = await caches.open(NAME);
  try {
    const answer = await fetch(request, { cache: "no-cache" });
    if (answer.ok) await kept.put(request, answer.clone());
    return answer;
  } catch (error) {
    const found = await kept.match(request, { ignoreSearch: true });
    if (found) return found;
    throw error;
  }
}

self.addEventListener("install", (event) => {
  event.waitUntil(caches.open(NAME).then((kept) => kept.addAll(FILES)));
  self.skipWaiting();
});
self.addEventListener("activate", (event) => event.waitUntil(self.clients.claim()));
self.addEventListener("fetch", (event) => {
  if (event.request.method === "GET" && new URL(event.request.url).origin === location.origin) event.respondWith(given(event.request));
});
