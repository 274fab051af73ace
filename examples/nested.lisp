; leaving the inner `let` undoes its own bindings, and not what it assigned to `*x*`
(defvar *x* 0)
(defvar *y* 0)
(let ((*x* 1))
  (let ((*y* 2))
    (setq *x* (+ *x* *y*)))
  (print *x*)
  (print *y*))
