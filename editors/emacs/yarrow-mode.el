;;; yarrow-mode.el --- Modules of the proof assistant Yarrow  -*- lexical-binding: t; -*-

;; Put this into your init file, with the path of your clone:
;;
;;     (load "CLONE/editors/emacs/yarrow-mode.el")
;;
;; In a file M.yar, C-c C-c (`yarrow-lint') lists all refusals in the system `yarrow-system', and C-x ` goes from one to the next.
;; The signs \ @ -> # are shown as λ Π → □; the file keeps them.

;;; Code:

(defgroup yarrow nil "Modules of the proof assistant Yarrow." :group 'languages)

(defcustom yarrow-system "LC" "The system in which a module is checked: a name of systems/, or a file."
  :type 'string :safe #'stringp :local t)

(defcustom yarrow-program
  (expand-file-name "../../bin/yarrow" (file-name-directory (file-truename (or load-file-name buffer-file-name))))
  "The script that starts Yarrow." :type 'file)

(defconst yarrow-font-lock
  '(("^\\s-*\\(yarrow-module\\|module\\|uses\\|parameter\\|assume\\|define\\|end\\)\\_>\\(?:[ \t]+\\([^] \t\n:.\\@()]+\\)\\)?"
     (1 font-lock-keyword-face) (2 font-lock-function-name-face nil t))
    ("\\_<\\(?:let\\|in\\)\\_>" . font-lock-keyword-face)
    ("[*#]\\|'\\sw+" . font-lock-type-face)
    ("[\\@]\\|->\\|:=" . font-lock-builtin-face)))

(defvar yarrow-mode-syntax-table
  (let ((table (make-syntax-table)))
    (modify-syntax-entry ?% "<" table)
    (modify-syntax-entry ?\n ">" table)
    (modify-syntax-entry ?_ "w" table)
    (dolist (sign '(?\\ ?@ ?* ?# ?' ?. ?: ?- ?> ?\;)) (modify-syntax-entry sign "." table))
    table))

(defun yarrow-lint ()
  "List all refusals of the module of this buffer, in the system `yarrow-system'."
  (interactive)
  (save-some-buffers (not compilation-ask-about-save) (lambda () (derived-mode-p 'yarrow-mode)))
  (compile (mapconcat #'shell-quote-argument
                      (list yarrow-program "lint" yarrow-system (file-name-nondirectory buffer-file-name)) " ")))

(define-derived-mode yarrow-mode prog-mode "Yarrow"
  "A mode for modules of Yarrow."
  (setq-local font-lock-defaults '(yarrow-font-lock)
              comment-start "% "
              comment-start-skip "%+ *"
              prettify-symbols-alist '(("\\" . ?λ) ("@" . ?Π) ("->" . ?→) ("#" . ?□))
              prettify-symbols-compose-predicate (lambda (_start _end _match) (not (nth 8 (syntax-ppss)))))
  (prettify-symbols-mode 1))

(define-key yarrow-mode-map (kbd "C-c C-c") #'yarrow-lint)

(add-to-list 'auto-mode-alist '("\\.yar\\'" . yarrow-mode))
(add-to-list 'magic-mode-alist '("yarrow-module 1$" . yarrow-mode))

(provide 'yarrow-mode)
;;; yarrow-mode.el ends here
