; an accepted program with forms that are not run yet: refused with the place of the first one
(defvar *n* 1)
(join-thread (make-thread (lambda () (print *n*))))
