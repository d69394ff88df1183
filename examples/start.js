"use strict";
app.state = { count: 0, items: [], title: `Items: ${config.title || "none"}`, "data-id": config.id, [config.key]: true };
if (!app.ready) app.start(); else app.resume();
for (app.index = 0; app.index < items.length; app.index++) {
  if (!items[app.index].hidden) render(items[app.index], { compact: !!config.compact, depth: app.index + 1 });
  else skip(app.index);
}
switch (config.mode) {
  case "light": theme.set("light"); break;
  case "dark": if (supportsDark) theme.set("dark"); break;
  default: theme.reset();
}
try { load(config.url); } catch { app.failed = true; } finally { app.done(); }
outer: while (!queue.empty()) {
  do { app.job = queue.next(); if (!app.job) continue outer; } while (!(app.job.started && app.job.active));
  app.job.result = !app.job.ok ? fail(app.job) : succeed(app.job?.value ?? null, ...app.job.args);
}
for (app.key in app.state) if (!app.state[app.key]) delete app.state[app.key];
for (app.item of items) app.state.count += app.item.size ** 2 - 1;
if (!(app.failed || queue.error)) report.clear(); else if (app.failed) report.send(-1, 0x10, 'it\'s', [1, , 2], 10n);
new Timer(app.state).start(), void 0, typeof app;
