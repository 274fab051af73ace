; outside of every `let` a special variable is read and set globally
(defvar *count* 1)
(setq *count* (+ *count* 1))
(print *count*)
