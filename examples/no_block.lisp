; a `lambda` sees no block round it: refused with the place of the `return-from`
(defun first-done ()
  (make-thread (lambda () (return-from first-done 1))))
