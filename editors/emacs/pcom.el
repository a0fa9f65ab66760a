;;; pcom.el --- Jump to the lines of pcom  -*- lexical-binding: t -*-

;;; Commentary:

;; `M-x pcom' runs pcom on the file of the buffer, and `next-error' jumps to what it tells.  With this file loaded
;; `M-x compile' knows the lines of editors/pcom-lines too.

;;; Code:

(require 'compile)

(defvar pcom-lines
  (let* ((here (file-name-directory (file-truename (or load-file-name buffer-file-name))))
         (script (expand-file-name "../pcom-lines" here)))
    (if (file-executable-p script) script "pcom-lines"))
  "The script editors/pcom-lines, from this file's own place, or else from the path.")

(defconst pcom-error-regexp-alist-alist
  '((pcom-open "^\\(.+?\\):\\([0-9]+\\):\\([0-9]+\\): possible error: .+$" 1 2 3 1)
    (pcom-refused "^\\(.+?\\):\\([0-9]+\\):\\([0-9]+\\): \\(?:error: \\|input: \\|\\(?:certificate \\)?refused \\).+$"
                  1 2 3 2)
    (pcom-certificate "^\\(.+?\\):\\([0-9]+\\): refused F[0-9]+$" 1 2 nil 2))
  "The lines of editors/pcom-lines: open sites are warnings, refusals and stops errors.")

(defconst pcom-error-regexp-alist (mapcar #'car pcom-error-regexp-alist-alist)
  "The names of the lines of editors/pcom-lines.")

(defconst pcom-error-screen-columns nil
  "A tab is one column.")

(dolist (form (reverse pcom-error-regexp-alist-alist))
  (add-to-list 'compilation-error-regexp-alist-alist form)
  (add-to-list 'compilation-error-regexp-alist (car form)))

(define-compilation-mode pcom-mode "pcom"
  "What pcom tells of a program.")

(defun pcom (words)
  "Run pcom on the file of this buffer, with WORDS in front of its name."
  (interactive "sWords in front of the source (--cert FILE, --go): ")
  (unless buffer-file-name
    (user-error "This buffer has no file"))
  (save-some-buffers (not compilation-ask-about-save))
  (compilation-start
   (concat (shell-quote-argument pcom-lines) " " words " " (shell-quote-argument (file-relative-name buffer-file-name)))
   #'pcom-mode))

(provide 'pcom)
;;; pcom.el ends here
