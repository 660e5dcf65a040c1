  ;; Lists: numbers of 64 bits in memory from and to what a typed array holds. Each works in place.

  ;; n doubles become n numbers of 64 bits. Returns how many were whole numbers from 0 to 2^53 - 1 before the first that
  ;; is not: n if all are. A whole number below 2^52 and 2^52 have as sum a double whose lowest 52 bits are that number.
  (func (export "from_doubles") (param $at f64) (param $n f64) (result f64)
    (local $p i64) (local $end i64) (local $x f64) (local $sum f64) (local $i i64)
    (local.set $p (i64.trunc_f64_u (local.get $at)))
    (local.set $end (i64.add (local.get $p) (i64.shl (i64.trunc_f64_u (local.get $n)) (i64.const 3))))
    (block $done (loop $next
      (br_if $done (i64.ge_u (local.get $p) (local.get $end)))
      (local.set $sum (f64.add (local.tee $x (f64.load (local.get $p))) (f64.const 0x1p52)))
      (local.set $i (i64.sub (i64.reinterpret_f64 (local.get $sum)) (i64.reinterpret_f64 (f64.const 0x1p52))))
      (if (i32.or (f64.ne (f64.sub (local.get $sum) (f64.const 0x1p52)) (local.get $x)) (i64.ge_u (local.get $i) (i64.const 0x10000000000000)))
        (then
          (local.set $i (call $whole (local.get $x)))
          (br_if $done (call $bad53 (local.get $x) (local.get $i)))))
      (i64.store (local.get $p) (local.get $i))
      (local.set $p (i64.add (local.get $p) (i64.const 8)))
      (br $next)))
    (f64.sub (local.get $n) (f64.convert_i64_u (i64.shr_u (i64.sub (local.get $end) (local.get $p)) (i64.const 3)))))

  ;; n numbers of 64 bits become n doubles; where missing is 1, 2^64 - 1 becomes NaN. Returns how many there were before
  ;; the first that is 2^53 or more: n if there is none.
  (func (export "to_doubles") (param $at f64) (param $n f64) (param $missing i32) (result f64)
    (local $p i64) (local $end i64) (local $x i64)
    (local.set $p (i64.trunc_f64_u (local.get $at)))
    (local.set $end (i64.add (local.get $p) (i64.shl (i64.trunc_f64_u (local.get $n)) (i64.const 3))))
    (block $done (loop $next
      (br_if $done (i64.ge_u (local.get $p) (local.get $end)))
      (local.set $x (i64.load (local.get $p)))
      (if (i64.le_u (local.get $x) (i64.const 9007199254740991))
        (then (f64.store (local.get $p) (f64.convert_i64_s (local.get $x))))
        (else
          (br_if $done (i32.eqz (i32.and (local.get $missing) (i64.eq (local.get $x) (i64.const -1)))))
          (f64.store (local.get $p) (f64.const nan))))
      (local.set $p (i64.add (local.get $p) (i64.const 8)))
      (br $next)))
    (f64.sub (local.get $n) (f64.convert_i64_u (i64.shr_u (i64.sub (local.get $end) (local.get $p)) (i64.const 3)))))

  ;; n numbers of 32 bits become n numbers of 64 bits from the same address on: the last one first.
  (func (export "from_32") (param $at f64) (param $n f64) (local $start i64) (local $i i64)
    (local.set $start (i64.trunc_f64_u (local.get $at)))
    (local.set $i (i64.trunc_f64_u (local.get $n)))
    (block $done (loop $next
      (br_if $done (i64.eqz (local.get $i)))
      (local.set $i (i64.sub (local.get $i) (i64.const 1)))
      (i64.store (i64.add (local.get $start) (i64.shl (local.get $i) (i64.const 3)))
        (i64.load32_u (i64.add (local.get $start) (i64.shl (local.get $i) (i64.const 2)))))
      (br $next))))

  ;; n numbers of 64 bits, each below 256, become n bytes.
  (func (export "to_bytes") (param $at f64) (param $n f64) (local $from i64) (local $to i64) (local $end i64)
    (local.set $from (i64.trunc_f64_u (local.get $at)))
    (local.set $to (local.get $from))
    (local.set $end (i64.add (local.get $to) (i64.trunc_f64_u (local.get $n))))
    (block $done (loop $next
      (br_if $done (i64.ge_u (local.get $to) (local.get $end)))
      (i64.store8 (local.get $to) (i64.load (local.get $from)))
      (local.set $to (i64.add (local.get $to) (i64.const 1)))
      (local.set $from (i64.add (local.get $from) (i64.const 8)))
      (br $next))))
