; inside a `let` a special variable is the thread's own
(defvar *x* 0)
(let ((*x* 1))
  (setq *x* 5)
  (print *x*))
*x*
