;;; warpd-mode.el --- Texts of warpd's programs -*- lexical-binding: t -*-

;; Colours and indentation, and where eglot finds the language server. In the init file:
;;
;;     (add-to-list 'load-path "CHECKOUT/clients/editors/emacs")
;;     (require 'warpd-mode)
;;     (add-hook 'warpd-mode-hook #'eglot-ensure)

;;; Code:

(defgroup warpd nil "Texts of warpd's programs." :group 'languages)

(defcustom warpd-compiler
  (let ((near (expand-file-name "../../python/warpd-compile"
                                (file-name-directory (file-truename (or load-file-name buffer-file-name))))))
    (if (file-executable-p near) near "warpd-compile"))
  "The compiler, whose `--lsp' is the language server."
  :type 'string)

(defconst warpd-test-words
  (concat "\\(?:^\\|[^.`]\\)\\_<\\("
          (regexp-opt '("expect" "draw" "withdraw" "ask" "always" "puts" "nothing" "at" "to" "every" "of" "lost"))
          "\\)\\_>"))

(defun warpd-in-test-p (place)
  "Whether PLACE is in a block of a test."
  (let ((open (car (last (nth 9 (save-excursion (syntax-ppss place)))))))
    (and open (save-excursion (goto-char open) (beginning-of-line) (looking-at "test[ \t]+\"")))))

(defun warpd-match-test-word (limit)
  "Find the next word of tests before LIMIT."
  (let (found)
    (while (and (not found) (re-search-forward warpd-test-words limit t))
      (setq found (save-match-data
                    (and (not (looking-at "[ \t]*[.[]")) (warpd-in-test-p (match-beginning 1))))))
    found))

(defconst warpd-font-lock
  `((,(regexp-opt '("target" "const" "import" "enum" "struct" "function" "method" "main" "reactor" "extends" "state"
                    "input" "output" "logical" "action" "timer" "reaction" "new" "after" "let" "if" "else" "for" "while"
                    "return" "break" "continue")
                  'symbols)
     . font-lock-keyword-face)
    ("\\_<\\(?:initial[ \t]+\\)?mode\\_>" . font-lock-keyword-face)
    ("\\_<\\(interleaved\\|reset\\|history\\)[ \t]*(" 1 font-lock-keyword-face)
    (,(regexp-opt '("startup" "shutdown" "true" "false" "bank_index") 'symbols) . font-lock-constant-face)
    (":[ \t]*\\(int\\|bool\\|time\\|fixed\\)\\_>" 1 font-lock-type-face)
    ("\\_<\\(?:reactor\\|new\\|extends\\|mode\\|enum\\|struct\\)[ \t]+\\([A-Za-z_][A-Za-z0-9_]*\\)" 1 font-lock-type-face)
    ("\\_<\\(put\\|schedule\\|request_stop\\|set_mode\\|present\\|min\\|max\\|abs\\|clamp\\|floor\\|round\\|fixed\\|among\\|mix\\|muldiv\\)[ \t]*("
     1 font-lock-builtin-face)
    ("^\\(test\\)[ \t]+\"" 1 font-lock-keyword-face)
    ("\\_<in[ \t]+every[ \t]+order\\_>" . font-lock-keyword-face)
    ;; The words of tests, where they stand in one.
    (warpd-match-test-word 1 font-lock-keyword-face)
    ("@[a-z]+" . font-lock-preprocessor-face)))

(defvar warpd-mode-syntax-table
  (let ((table (make-syntax-table)))
    (modify-syntax-entry ?/ ". 124b" table)
    (modify-syntax-entry ?* ". 23" table)
    (modify-syntax-entry ?\n "> b" table)
    (modify-syntax-entry ?_ "_" table)
    (modify-syntax-entry ?= "." table)
    table))

(defun warpd-indent-line ()
  "Indent by two for each bracket that is open."
  (interactive)
  (let ((column (save-excursion
                  (back-to-indentation)
                  (* 2 (max 0 (- (car (syntax-ppss)) (if (looking-at "=?}\\|)\\|\\]") 1 0)))))))
    (if (<= (current-column) (current-indentation))
        (indent-line-to column)
      (save-excursion (indent-line-to column)))))

;;;###autoload
(define-derived-mode warpd-mode prog-mode "warpd"
  "For texts of warpd's programs."
  (setq-local comment-start "// "
              comment-end ""
              indent-line-function #'warpd-indent-line
              indent-tabs-mode nil
              font-lock-defaults '(warpd-font-lock)))

;;;###autoload
(add-to-list 'auto-mode-alist '("\\.lf\\'" . warpd-mode))

(with-eval-after-load 'eglot
  (add-to-list 'eglot-server-programs
               (cons 'warpd-mode (lambda (&rest _) (list warpd-compiler "--lsp")))))

(provide 'warpd-mode)
;;; warpd-mode.el ends here
