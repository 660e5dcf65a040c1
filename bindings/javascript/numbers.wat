  (global $refused f64 (f64.const -5))

  ;; The whole number that a double is; for any other double, some number that is not equal to it.
  (func $whole (param $x f64) (result i64) (i64.trunc_sat_f64_s (local.get $x)))

  ;; Whether x, of which $whole made i, is no whole number of 16, 32 or 53 bits.
  (func $bad16 (param $x f64) (param $i i64) (result i32) (call $bad (local.get $x) (local.get $i) (i64.const 65535)))
  (func $bad32 (param $x f64) (param $i i64) (result i32) (call $bad (local.get $x) (local.get $i) (i64.const 4294967295)))
  (func $bad53 (param $x f64) (param $i i64) (result i32) (call $bad (local.get $x) (local.get $i) (i64.const 9007199254740991)))
  (func $bad (param $x f64) (param $i i64) (param $most i64) (result i32)
    (i32.or (f64.ne (f64.convert_i64_s (local.get $i)) (local.get $x)) (i64.gt_u (local.get $i) (local.get $most))))

  ;; 64 bits as a number below 2^53, or NaN.
  (func $number (param $x i64) (result f64)
    (if (i64.gt_u (local.get $x) (i64.const 9007199254740991)) (then (return (f64.const nan))))
    (f64.convert_i64_s (local.get $x)))

  ;; What an adaptor returns after a call with that status: minus the status, or the answer, of 64 or 32 bits.
  (func $done (param $status i32) (result f64) (f64.convert_i32_s (i32.sub (i32.const 0) (local.get $status))))
  (func $answered64 (param $status i32) (result f64)
    (if (local.get $status) (then (return (call $done (local.get $status)))))
    (call $number (i64.load (global.get $answer))))
  (func $answered32 (param $status i32) (result f64)
    (if (local.get $status) (then (return (call $done (local.get $status)))))
    (f64.convert_i64_s (i64.load32_u (global.get $answer))))
