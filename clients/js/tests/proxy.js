// Stands between a client and a server: it notes the lines, and cuts connections.

import { once } from "node:events";
import net from "node:net";

/**
 * Listens on a free port in front of a server, until the test ends. `lines` are those that went through, each behind the source's name
 * and `>` or `<`; `cut` cuts the connections, or those of one source; while `isDeaf` holds, what the server says is dropped.
 */
export async function proxied(test, address) {
  const proxy = { upstream: address, lines: [], isDeaf: false, hasDropped: false, pairs: new Set() };
  const server = net.createServer((near) => {
    const far = net.connect({ ...proxy.upstream, noDelay: true });
    const pair = { near, far };
    proxy.pairs.add(pair);
    const end = () => {
      proxy.pairs.delete(pair);
      near.destroy();
      far.destroy();
    };
    for (const [source, target, mark] of [[near, far, ">"], [far, near, "<"]]) {
      let text = "";
      source.on("data", (data) => {
        if (proxy.isDeaf && mark === "<") return void (proxy.hasDropped = true);
        target.write(data);
        const lines = (text + data).split("\n");
        text = lines.pop();
        for (const line of lines) {
          if (line.startsWith('{"do":"hello"')) pair.source = JSON.parse(line).source;
          proxy.lines.push(`${pair.source} ${mark} ${line}`);
        }
      });
      source.on("end", () => target.end());
      source.on("error", end);
      source.on("close", end);
    }
  });
  server.listen(0, "127.0.0.1");
  await once(server, "listening");
  proxy.address = { host: "127.0.0.1", port: server.address().port };
  proxy.cut = (name) => {
    for (const { near, far, source } of [...proxy.pairs]) {
      if (name !== undefined && source !== name) continue;
      near.destroy();
      far.destroy();
    }
  };
  test.after(() => {
    server.close();
    proxy.cut();
  });
  return proxy;
}
