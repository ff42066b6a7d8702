;;; common.el --- what the scripts of eglot and lsp-mode share  -*- lexical-binding: t -*-
;; TEXT is the file, REPORT gets a line a check.
(setq inhibit-message t
      create-lockfiles nil
      make-backup-files nil
      native-comp-deferred-compilation nil
      native-comp-async-report-warnings-errors nil
      last-nonmenu-event ?\r)

(defvar failed-checks 0)

(defun report-line (line)
  (let ((coding-system-for-write 'utf-8))
    (write-region (concat line "\n") nil (getenv "REPORT") t 'quiet)))

(defun check (name holds got)
  "Reports whether a check HOLDS, and what was there where it doesn't."
  (unless holds (setq failed-checks (1+ failed-checks)))
  (report-line (if holds (concat "ok " name)
                 (format "FAIL %s: %s" name (replace-regexp-in-string "\n" " / " (format "%S" got))))))

(defmacro wait-for (condition)
  "Waits until CONDITION holds, at most 10 seconds, and returns it."
  (let ((tries (make-symbol "tries")) (value (make-symbol "value")))
    `(let ((,tries 0) ,value)
       (while (and (not (setq ,value ,condition)) (< ,tries 400))
         (sit-for 0.025)
         (setq ,tries (1+ ,tries)))
       ,value)))

(defun put-at (line column)
  (goto-char (point-min))
  (forward-line (1- line))
  (forward-char column))

(defun line-text (line)
  (save-excursion
    (put-at line 0)
    (buffer-substring-no-properties (point) (line-end-position))))

(defun open-text ()
  "Opens the file as a user does; what its mode's hook leaves for the next command is run."
  (switch-to-buffer (find-file-noselect (getenv "TEXT")))
  (run-hooks 'post-command-hook))

(defconst faults-wanted
  '("2 This has type string but type int is wanted"
    "3 Unbound value fo"
    "4 Not every value is matched: Some _"
    "5 1 part is missing here")
  "The line and the message of each diagnostic of the text.")

(defun run-session (session)
  "Runs SESSION once emacs has started, and ends emacs."
  (add-hook 'emacs-startup-hook
            (lambda ()
              (condition-case fault (funcall session)
                (error (check "script" nil fault)))
              (kill-emacs (if (= failed-checks 0) 0 1)))))
