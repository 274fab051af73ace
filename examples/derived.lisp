; `let*` is a `let` in a `let`, and `incf` a `setq` of a sum
(defvar *x* 1)
(defvar *y* 2)
(let* ((*x* (+ *x* 10))
       (*y* (+ *x* *y*)))
  (incf *y* 5)
  (print *y*))
