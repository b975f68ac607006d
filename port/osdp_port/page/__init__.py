"""A page at the line: the process that has the port (`start`, `work`), the one that speaks to browsers (`server`), and what the browser shows (`files`)."""
