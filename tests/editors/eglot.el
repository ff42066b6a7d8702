;;; eglot.el --- what a user of eglot sees of README's lines  -*- lexical-binding: t -*-

(defun faults ()
  (sort (mapcar (lambda (it)
                  (format "%d %s" (line-number-at-pos (flymake-diagnostic-beg it))
                          (replace-regexp-in-string "\\`.*\\]: " "" (flymake-diagnostic-text it))))
                (flymake-diagnostics))
        #'string<))

(defun tell-changes ()
  "What eglot does half a second after the last key, by an idle timer that doesn't run below a script."
  (sit-for 0.02)
  (eglot--signal-textDocument/didChange))

(defun hovered ()
  (let ((found 'none))
    (eglot-hover-eldoc-function (lambda (text &rest _) (setq found text)))
    (wait-for (not (eq found 'none)))
    (format "%s" found)))

(defun act (line column title changed)
  "Takes the proposed change of this TITLE, at a place."
  (put-at line column)
  (let (titles)
    (cl-letf (((symbol-function 'completing-read)
               (lambda (_prompt items &rest _) (setq titles (mapcar #'car items)) title)))
      (condition-case fault (call-interactively #'eglot-code-actions) (error (push fault titles))))
    (check title (equal (line-text line) changed) (list (line-text line) titles))))

(defun session ()
  (open-text)
  (wait-for (and (eglot-managed-p) (= 4 (length (flymake-diagnostics)))))
  (check "diagnostics" (equal (faults) faults-wanted) (faults))

  (put-at 1 4)
  (check "hover" (string-match-p (regexp-quote "('a -> 'a) -> 'a -> 'a") (hovered)) (hovered))

  (put-at 2 10)
  (call-interactively #'xref-find-definitions)
  (check "definition" (equal (list (line-number-at-pos) (current-column)) '(1 4)) (list (line-number-at-pos) (current-column)))

  (put-at 3 15)
  (let* ((found (eglot-completion-at-point))
         (names (mapcar #'substring-no-properties
                        (all-completions (buffer-substring-no-properties (nth 0 found) (nth 1 found)) (nth 2 found)))))
    (check "completion" (equal names '("fold_left" "fold_right" "for_all")) names))

  (act 4 19 "Case analysis" "let f opt = match (match opt with | None -> _ | Some _ -> _) with None -> 0")
  (tell-changes)
  (act 5 11 "Insert 0" "let k = n +0")

  (erase-buffer)
  (insert "let s = \"😀\" ^ \"a\"\n")
  (tell-changes)
  (wait-for (null (faults)))
  (check "no diagnostics where nothing is wrong" (null (faults)) (faults))

  (save-buffer)
  (let ((server (eglot-current-server)))
    (eglot-shutdown server)
    (check "ended" (not (jsonrpc-running-p server)) "it still runs")))

(run-session #'session)
