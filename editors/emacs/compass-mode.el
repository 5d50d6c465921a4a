;;; compass-mode.el --- decks of COMPASS for the Control Data 6000 series  -*- lexical-binding: t -*-

;; Made by bench/editors of the program's tables of operations; what is changed here is lost.

;;; Code:

(defconst compass-pseudo-instructions '("PERIPH" "EJECT" "ENTRY" "IDENT" "SPACE" "TITLE" "BASE" "BSSZ" "DATA" "LIST" "ABS" "BSS" "CON" "DIS" "END" "EQU" "EXT" "LOC" "ORG" "USE" "VFD" "="))
(defconst compass-instructions '("ACN" "ADC" "ADD" "ADI" "ADM" "ADN" "AJM" "AOD" "AOI" "AOM" "CRD" "CRM" "CWD" "CWM" "DCN" "EJM" "EXN" "FAN" "FJM" "FNC" "IAM" "IAN" "IJM" "LCN" "LDC" "LDD" "LDI" "LDM" "LDN" "LJM" "LMC" "LMD" "LMI" "LMM" "LMN" "LPC" "LPN" "MJN" "NJN" "OAM" "OAN" "PJN" "PSN" "RAD" "RAI" "RAM" "RJM" "RPN" "SBD" "SBI" "SBM" "SBN" "SCN" "SHN" "SOD" "SOI" "SOM" "STD" "STI" "STM" "UJN" "ZJN" "DF" "EQ" "GE" "GT" "ID" "IR" "JP" "LE" "LT" "MI" "NE" "NG" "NO" "NZ" "OR" "PL" "PS" "RJ" "ZR"))
(defconst compass-numbered-instructions '("AX" "BX" "CX" "DX" "FX" "IX" "LX" "MX" "NX" "PX" "RX" "SA" "SB" "SX" "UX" "ZX")
  "Those with the digit of a register behind.")

(defgroup compass nil "Decks of COMPASS." :group 'languages)

(defface compass-sequence '((t :inherit shadow))
  "The columns after 72.")

(defun compass-field (last end)
  "Where the next field begins and ends, at END or before.
One that begins behind LAST is none."
  (skip-chars-forward " " end)
  (if (or (> (point) last) (= (point) end))
      (list nil nil)
    (list (point) (progn (skip-chars-forward "^ " end) (point)))))

(defun compass-fields (start end)
  "Where the fields of the card from START to END begin and end.
Location, operation, variable field and commentary, in this order."
  (goto-char start)
  (pcase (char-after)
    (?* (list nil nil nil nil nil nil start end))
    (?, (list nil nil nil nil nil nil start (1+ start)))
    (_ (append (compass-field (1+ start) end)
               (compass-field (+ start 28) end)
               (compass-field (+ start 28) end)
               (list (point) end)))))

(defun compass-match-card (limit)
  "Find the next card before LIMIT.
The groups are those of `compass-fields', and the columns after 72."
  (when (re-search-forward "^.+" limit t)
    (let* ((start (match-beginning 0))
           (behind (match-end 0))
           (end (min behind (+ start 72))))
      (set-match-data (append (list start behind) (compass-fields start end) (list end behind)))
      (goto-char behind))))

(defun compass-operation-face (operation)
  "The face of OPERATION, or of what is none."
  (cond ((member operation compass-pseudo-instructions) 'font-lock-preprocessor-face)
        ((or (member operation compass-instructions)
             (and (string-match-p "\\`..[0-7]\\'" operation)
                  (member (substring operation 0 2) compass-numbered-instructions)))
         'font-lock-keyword-face)
        (t 'font-lock-warning-face)))

(defun compass-to-operand ()
  "Go to the variable field that was matched, or else to the end of the card.
The value is where the field ends."
  (goto-char (or (match-beginning 3) (match-end 0)))
  (match-end 3))

(defun compass-match-element (limit)
  "Find a counted item, a number or a register, as if LIMIT were the end of all."
  (save-restriction
    (narrow-to-region (point) limit)
    (re-search-forward "\\<\\(?:\\([0-9]+[HALRC][^, ]*\\)\\|\\([0-9]+[BDO]?\\(?:S[0-9]+\\)?\\)\\>\\|\\([ABX][0-7]\\)\\>\\)"
                       nil t)))

(defconst compass-font-lock-keywords
  '((compass-match-card
     (1 'font-lock-function-name-face nil t)
     (2 (compass-operation-face (match-string 2)) nil t)
     (4 'font-lock-comment-face nil t)
     (5 'compass-sequence nil t)
     (compass-match-element (compass-to-operand) nil
                            (1 'font-lock-string-face nil t)
                            (2 'font-lock-constant-face nil t)
                            (3 'font-lock-variable-name-face nil t)))))

(defvar compass-mode-syntax-table
  (let ((table (make-syntax-table)))
    (dolist (mark (string-to-list ".$=#[]%\"!&'?<>@\\"))
      (modify-syntax-entry mark "_" table))
    (dolist (mark (string-to-list "+-*/,:;^"))
      (modify-syntax-entry mark "." table))
    (modify-syntax-entry ?_ "w" table)
    table)
  "The marks of symbols, and those between them.")

(defvar compass-mode-map
  (let ((map (make-sparse-keymap)))
    (define-key map "\t" #'tab-to-tab-stop)
    map)
  "The key Tab.")

;;;###autoload
(define-derived-mode compass-mode prog-mode "COMPASS"
  "Decks of cards: stops at columns 11, 18, 30, blanks for tabs."
  (setq-local font-lock-defaults '(compass-font-lock-keywords t))
  (setq-local indent-tabs-mode nil)
  (setq-local tab-stop-list '(10 17 29 32 40 48 56 64))
  ;; a card is never moved along by Enter or `indent-region'
  (setq-local indent-line-function #'ignore)
  (setq-local comment-start "*")
  (setq-local fill-column 72))

;;;###autoload
(add-to-list 'auto-mode-alist '("\\.\\(?:deck\\|DECK\\)\\'" . compass-mode))

(provide 'compass-mode)
;;; compass-mode.el ends here
