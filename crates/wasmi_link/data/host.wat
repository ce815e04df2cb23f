;; What rare.wat and guest.wat ask `host` for. It asks itself for two of its tables.
(module
  (import "host" "slots" (table 4 externref))
  (import "host" "calls" (table 2 4 funcref))
  (table (export "slots") 4 8 externref)
  (table (export "calls") 1 4 funcref)
  (global (export "base") (mut i32) (i32.const 1024))
  (global (export "wide") v128 (v128.const i32x4 1 2 3 4)))
