;; What app.c asks `env` for: `now` with another result, and `log` as it is.
(module
  (func (export "now") (result i64) i64.const 1)
  (func (export "log") (param i32 i32))
  (memory (export "memory") 2)
  (global (export "limit") (mut i32) (i32.const -7)))
