// The item of the site (GET /items/ID) by node's http, for tools/try-deploy --figures.
const http = require("http");

http.createServer((request, response) => {
  const found = /^\/items\/(\d+)$/.exec(request.url);
  if (found === null) {
    response.writeHead(404).end();
    return;
  }
  const id = Number(found[1]);
  const body = JSON.stringify({ id, name: `item ${id}`, tags: [] });
  response.writeHead(200, {
    "Cache-Control": "no-cache",
    "Content-Type": "application/json",
    "Content-Length": Buffer.byteLength(body),
    "X-Content-Type-Options": "nosniff",
  });
  response.end(body);
}).listen(Number(process.argv[2]), "127.0.0.1");
