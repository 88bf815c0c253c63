;;; rattle-mode.el --- Code, definitions and proofs of Rattle  -*- lexical-binding: t; -*-

;; `rattle-mode' colours code (`.rt'): what is Rust as Rust, and clauses, ghost members and lifetimes as
;; what they are. `antt-mode' colours definitions and proofs (`.antt').
;; C-c C-c proves the crate of the file, C-c C-o one function; M-g n goes to the next thing that isn't proved.

;;; Code:

(require 'compile)

(defgroup rattle nil "Rust with contracts that are proved." :group 'languages)

(defconst rattle-keywords
  '("as" "break" "const" "continue" "crate" "dyn" "else" "enum" "extern" "fn" "for" "if" "impl" "in"
    "let" "loop" "match" "mod" "move" "mut" "pub" "ref" "return" "self" "Self" "static" "struct" "super"
    "trait" "type" "unsafe" "use" "where" "while")
  "The keywords of Rust.")

(defconst rattle-clauses
  "\\_<\\(ghost\\(?: use\\)?\\|requires\\|ensures\\*?\\)\\_>"
  "What begins a clause or a ghost member.")

(defconst rattle-font-lock
  `((,rattle-clauses . font-lock-preprocessor-face)
    ("#!?\\[[^]\n]*\\]" . font-lock-preprocessor-face)
    ("\\_<fn\\s-+\\(\\(?:\\sw\\|\\s_\\)+\\)" 1 font-lock-function-name-face)
    ("\\_<\\(?:requires\\|ensures\\*?\\)\\s-+\\(\\(?:\\sw\\|\\s_\\)+\\)\\s-*{" 1 font-lock-variable-name-face)
    (,(regexp-opt rattle-keywords 'symbols) . font-lock-keyword-face)
    ("\\_<\\(?:true\\|false\\|None\\|Some\\|Ok\\|Err\\)\\_>" . font-lock-constant-face)
    ("\\_<\\(?:\\sw\\|\\s_\\)+!" . font-lock-builtin-face)
    ("'[a-z][a-z0-9_]*\\_>" . font-lock-variable-name-face)
    ("\\_<[A-Z]\\(?:\\sw\\|\\s_\\)*\\_>" . font-lock-type-face)
    ("\\_<[iuf]\\(?:8\\|16\\|32\\|64\\|128\\|size\\)\\_>\\|\\_<\\(?:bool\\|char\\|str\\)\\_>" . font-lock-type-face))
  "What `rattle-mode' colours beside comments and strings.")

(defvar rattle-syntax
  (let ((table (make-syntax-table)))
    (modify-syntax-entry ?/ ". 124b" table)
    (modify-syntax-entry ?* ". 23n" table)
    (modify-syntax-entry ?\n "> b" table)
    (modify-syntax-entry ?_ "_" table)
    (dolist (sign '(?< ?> ?& ?| ?= ?+ ?-))
      (modify-syntax-entry sign "." table))
    (modify-syntax-entry ?\" "\"" table)
    (modify-syntax-entry ?\\ "\\" table)
    table)
  "Comments and strings of code.")

(defconst rattle-characters
  ;; A quote begins a character if one ends it; else it begins a lifetime.
  (syntax-propertize-rules ("\\('\\)\\(?:[^'\\\n]\\|\\\\[^\n]\\|\\\\u{[0-9a-f]+}\\)\\('\\)" (1 "\"") (2 "\""))))

(defconst antt-keywords
  '("use" "module" "mod" "pub" "abbrev" "unfoldable" "unfolding" "record" "data" "where" "let" "in" "as"
    "infixr" "infixl" "infix" "elim" "rw" "at" "if" "then" "else" "cond")
  "The keywords of definitions and proofs.")

(defconst antt-font-lock
  `((,(regexp-opt antt-keywords 'symbols) . font-lock-keyword-face)
    ("\\_<\\(?:record\\|data\\)\\s-+\\([^][ :({}\n]+\\)" 1 font-lock-function-name-face)
    ("^\\s-*\\(?:\\(?:abbrev\\|unfoldable\\|pub\\)\\s-+\\)*\\([^][ :({}\n]+\\)\\s-+\\(?:[^:=\n]*\\s-\\)?:\\s-" 1 font-lock-function-name-face)
    (,(regexp-opt '("search" "grind" "omega" "arith" "cc" "ruleset" "refl") 'symbols) . font-lock-builtin-face)
    ("\\_<\\(?:true\\|false\\)\\_>" . font-lock-constant-face)
    ("\\_<[A-Z]\\(?:\\sw\\|\\s_\\)*\\_>" . font-lock-type-face)
    ("[→×⊎≡∷≤↔λ∙¬⊤⊥]\\|\\+\\+\\|==\\|&&\\|||" . font-lock-preprocessor-face)
    ("\\?" . font-lock-warning-face))
  "What `antt-mode' colours beside comments and strings.")

(defvar antt-syntax
  (let ((table (make-syntax-table)))
    (modify-syntax-entry ?- "_ 12" table)
    (modify-syntax-entry ?\n ">" table)
    (modify-syntax-entry ?_ "_" table)
    (modify-syntax-entry ?' "_" table)
    (modify-syntax-entry ?\" "\"" table)
    table)
  "Comments and strings of definitions and proofs.")

(defconst rattle-errors
  '(rattle "^\\(?:note: \\)?\\([^ :\n]+\\.\\(?:rt\\|antt\\)\\):\\([0-9]+\\):\\([0-9]+\\): " 1 2 3)
  "How `rt check' names a place.")

(add-to-list 'compilation-error-regexp-alist-alist rattle-errors)
(add-to-list 'compilation-error-regexp-alist 'rattle)

(defun rattle-check (words)
  "Proves the crate of this file over what is kept; WORDS are those of `rt check'."
  (let* ((crate (locate-dominating-file default-directory "src"))
         (default-directory (or crate (user-error "No crate's folder at or above %s" default-directory))))
    (compile (concat "rt check " words))))

(defun rattle-check-crate ()
  "Proves the crate of this file over what is kept."
  (interactive)
  (rattle-check ""))

(defun rattle-check-function (function)
  "Proves one FUNCTION, named as rtui_diff::step::step, with its proof files."
  (interactive "sFunction (crate::module::function): ")
  (rattle-check (concat "--only " (shell-quote-argument function))))

(defvar rattle-keys
  (let ((keys (make-sparse-keymap)))
    (define-key keys (kbd "C-c C-c") #'rattle-check-crate)
    (define-key keys (kbd "C-c C-o") #'rattle-check-function)
    keys)
  "The keys of both modes.")

;;;###autoload
(define-derived-mode rattle-mode prog-mode "Rattle"
  "Code of Rattle: Rust with clauses and ghost members."
  :syntax-table rattle-syntax
  (setq-local comment-start "// " comment-end "" indent-tabs-mode nil)
  (setq-local syntax-propertize-function rattle-characters)
  (setq-local font-lock-defaults '(rattle-font-lock))
  (use-local-map (make-composed-keymap rattle-keys prog-mode-map)))

;;;###autoload
(define-derived-mode antt-mode prog-mode "Antt"
  "Definitions and proofs of Rattle."
  :syntax-table antt-syntax
  (setq-local comment-start "-- " comment-end "" indent-tabs-mode nil)
  (setq-local font-lock-defaults '(antt-font-lock))
  (use-local-map (make-composed-keymap rattle-keys prog-mode-map)))

;;;###autoload
(add-to-list 'auto-mode-alist '("\\.rt\\'" . rattle-mode))
;;;###autoload
(add-to-list 'auto-mode-alist '("\\.antt\\'" . antt-mode))

(provide 'rattle-mode)
;;; rattle-mode.el ends here
