// Serves this folder: node serve.mjs [PORT [HOST]]. Without HOST, the folder is served to this computer only.
import { createServer } from "node:http";
import { readFile } from "node:fs/promises";
import { extname, join, normalize } from "node:path";
import { fileURLToPath, pathToFileURL } from "node:url";

const ROOT = fileURLToPath(new URL(".", import.meta.url));
const TYPES = {
  ".html": "text/html; charset=utf-8",
  ".js": "text/javascript; charset=utf-8",
  ".mjs": "text/javascript; charset=utf-8",
  ".css": "text/css; charset=utf-8",
  ".wasm": "application/wasm",
  ".svg": "image/svg+xml",
};

async function answer(request, response, folders) {
  const { pathname } = new URL(request.url, "http://localhost");
  const path = normalize(decodeURIComponent(pathname === "/" ? "/index.html" : pathname));
  const [, first, rest] = path.match(/^\/([^/]*)(\/.*)?$/);
  try {
    const body = await readFile(folders[first] ? join(folders[first], rest) : join(ROOT, path));
    response.writeHead(200, { "content-type": TYPES[extname(path)] ?? "application/octet-stream", "cache-control": "no-store" });
    response.end(body);
  } catch {
    response.writeHead(404, { "content-type": "text/plain" });
    response.end("there is no such file\n");
  }
}

/**
 * Starts serving, and returns the server and its address. Port 0 means any free port. `folders` are more folders to serve, each
 * with its name. `host` is the address to listen on: "127.0.0.1" means only this computer, and "0.0.0.0" means all its networks.
 */
export async function serve(port = 0, folders = {}, host = "127.0.0.1") {
  const server = createServer((request, response) => answer(request, response, folders).catch(() => response.destroy()));
  await new Promise((done, failed) => server.once("error", failed).listen(port, host, done));
  const name = ["127.0.0.1", "0.0.0.0", "::"].includes(host) ? "localhost" : host.includes(":") ? `[${host}]` : host;
  return { server, address: `http://${name}:${server.address().port}/` };
}

if (process.argv[1] && import.meta.url === pathToFileURL(process.argv[1]).href) {
  const port = Number(process.argv[2] ?? 8000);
  const host = process.argv[3];
  try {
    const { address } = await serve(port, {}, host);
    console.log(`${address} (Ctrl+C ends it)`);
  } catch (error) {
    console.error(`serve.mjs: port ${port}${host ? ` of ${host}` : ""} can't be used: ${error.message}`);
    process.exitCode = 1;
  }
}
