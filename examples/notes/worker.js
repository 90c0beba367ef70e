// What gives the page where there is no network: what the page has kept of itself.

addEventListener("fetch", (event) => {
  if (event.request.method !== "GET") return;
  const kept = async (error) => (await caches.match(event.request, { ignoreSearch: true })) ?? Promise.reject(error);
  event.respondWith(fetch(event.request).catch(kept));
});
