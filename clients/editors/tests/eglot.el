;;; Emacs with eglot, in batch: shows the fault of a text, goes to a definition, and gives another name. -*- lexical-binding: t -*-

;; What it saw is printed, a line each. $EDITORS is the folder of the editors' files.

;;; Code:

(require 'package)
(add-to-list 'package-directory-list "/usr/share/emacs/site-lisp/elpa")
(package-initialize)
(require 'eglot)
(require 'flymake)
(add-to-list 'load-path (concat (getenv "EDITORS") "/emacs"))
(require 'warpd-mode)
(setq eglot-sync-connect t
      eglot-autoshutdown nil
      eglot-confirm-server-initiated-edits nil
      flymake-no-changes-timeout 0.1
      vc-handled-backends nil
      make-backup-files nil)

(defun tell (&rest parts)
  (princ (concat (apply #'format parts) "\n")))

(defun wait (what condition)
  "Wait for a CONDITION, and tell WHAT where it never comes."
  (let ((turns 1200))
    (while (and (> turns 0) (not (funcall condition)))
      (accept-process-output nil 0.05)
      (flymake-start)
      (setq turns (1- turns)))
    (when (= turns 0) (tell "waited in vain for %s" what))))

(defun faults ()
  (mapcar (lambda (it)
            (format "%d: %s" (line-number-at-pos (flymake-diagnostic-beg it))
                    (car (split-string (flymake-diagnostic-text it) "\n"))))
          (flymake-diagnostics)))

(defun to (line column)
  (goto-char (point-min))
  (forward-line (1- line))
  (forward-char (1- column)))

(find-file "game.lf")
(tell "mode %s" major-mode)
(font-lock-ensure)
(defun face-at (line column) (to line column) (get-text-property (point) 'face))
(tell "colour %s %s %s" (face-at 2 1) (face-at 8 29) (face-at 8 12))
(apply #'eglot--connect (eglot--guess-contact))
(flymake-mode 1)
(wait "a fault" #'faults)
(tell "fault %s" (string-join (faults) "; "))
(to 5 20)
(delete-char 4)
(insert "lives")
(eglot--signal-textDocument/didChange)
(wait "no fault" (lambda () (null (faults))))
(to 5 21)
(xref-find-definitions "LSP identifier at point.")
(tell "definition %d:%d" (line-number-at-pos) (1+ (current-column)))
(eglot-rename "hearts")
(tell "renamed %s %s"
      (buffer-substring (progn (to 3 1) (point)) (line-end-position))
      (buffer-substring (progn (to 5 1) (point)) (line-end-position)))
(set-buffer-modified-p nil)
(eglot-shutdown (eglot-current-server))
;;; eglot.el ends here
