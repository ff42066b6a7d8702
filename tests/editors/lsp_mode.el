;;; lsp_mode.el --- what a user of lsp-mode sees of README's lines  -*- lexical-binding: t -*-
(setq lsp-auto-guess-root t
      lsp-enable-file-watchers nil
      lsp-enable-snippet nil
      lsp-restart 'ignore
      lsp-keep-workspace-alive nil)

(defun faults ()
  (sort (mapcar (lambda (it)
                  (format "%d %s" (1+ (gethash "line" (gethash "start" (gethash "range" it)))) (gethash "message" it)))
                (append (gethash (buffer-file-name) (lsp-diagnostics t)) nil))
        #'string<))

(defun hovered ()
  (let ((found (lsp-request "textDocument/hover" (lsp--text-document-position-params))))
    (and found (substring-no-properties (lsp--render-on-hover-content (gethash "contents" found) t)))))

(defun act (line column title changed)
  "Takes the proposed change of this TITLE, at a place."
  (put-at line column)
  (let ((actions (lsp-code-actions-at-point)))
    (seq-doseq (it actions) (when (equal (gethash "title" it) title) (lsp-execute-code-action it)))
    (check title (equal (line-text line) changed) (list (line-text line) (mapcar (lambda (it) (gethash "title" it)) actions)))))

(defun session ()
  (lsp-workspace-folders-add (file-name-directory (getenv "TEXT")))
  (open-text)
  (wait-for (= 4 (length (faults))))
  (check "diagnostics" (equal (faults) faults-wanted) (faults))

  (put-at 1 4)
  (check "hover" (string-match-p (regexp-quote "('a -> 'a) -> 'a -> 'a") (or (hovered) "")) (hovered))

  (put-at 2 10)
  (lsp-find-definition)
  (check "definition" (equal (list (line-number-at-pos) (current-column)) '(1 4)) (list (line-number-at-pos) (current-column)))

  (put-at 3 15)
  (let* ((found (lsp-completion-at-point))
         (names (mapcar #'substring-no-properties
                        (all-completions (buffer-substring-no-properties (nth 0 found) (nth 1 found)) (nth 2 found)))))
    (check "completion" (equal names '("fold_left" "fold_right" "for_all")) names))

  (act 4 19 "Case analysis" "let f opt = match (match opt with | None -> _ | Some _ -> _) with None -> 0")
  (act 5 11 "Insert 0" "let k = n +0")

  (erase-buffer)
  (insert "let s = \"😀\" ^ \"a\"\n")
  (wait-for (null (faults)))
  (check "no diagnostics where nothing is wrong" (null (faults)) (faults))

  (save-buffer)
  (let ((workspace (car (lsp-workspaces))))
    (lsp-workspace-shutdown workspace)
    (check "ended" (wait-for (not (process-live-p (lsp--workspace-cmd-proc workspace)))) "it still runs")))

(run-session #'session)
