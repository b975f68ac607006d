// Runs a program of WebAssembly that exports `run` and prints by `env.print`.
const bytes = require("fs").readFileSync(process.argv[2])
let memory
const print = (at, length) => process.stdout.write(Buffer.from(memory.buffer, at, length))
WebAssembly.instantiate(bytes, { env: { print } }).then(({ instance }) => {
  memory = instance.exports.memory
  instance.exports.run()
})
