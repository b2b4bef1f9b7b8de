;;; steps.el --- steps through a pickle with dap-mode  -*- lexical-binding: t -*-
;;; Commentary:
;; It hits each kind of breakpoint both ways, edits and saves.  Arguments: the pickle, the file to save to, a line of the listing, a condition, a pattern
;; of names, an offset, a line of the Python code, an edit and the command of the adapter.  It prints a line for each thing that it did.
;;; Code:

(require 'package)
(setq package-directory-list '("/usr/share/emacs/site-lisp/elpa"))
(package-initialize)
(require 'dap-mode)

(defvar steps-stopped nil "What the latest event of a stop has.")
(defvar steps-shown nil "Whether the place of that stop is shown.")
(defvar steps-given command-line-args-left)
(setq command-line-args-left nil
      revert-without-query '(".*")
      dap-breakpoints-file (expand-file-name "breakpoints" user-emacs-directory)
      lsp-session-file (expand-file-name "session" user-emacs-directory))

(defun steps-wait (test)
  "Wait until TEST is true."
  (let ((ends (+ (float-time) 60)))
    (while (not (funcall test))
      (when (> (float-time) ends) (error "Nothing came"))
      (accept-process-output nil 0.02))))

(defun steps-ask (command arguments)
  "Send COMMAND with ARGUMENTS and return the body of the answer, or say why it was refused."
  (let (answer)
    (dap--send-message (dap--make-request command arguments) (lambda (got) (setq answer got)) (dap--cur-session-or-die))
    (steps-wait (lambda () answer))
    (if (gethash "success" answer)
        (gethash "body" answer)
      (princ (format "refused %s: %s\n" command (gethash "message" answer))))))

(defun steps-place ()
  "Wait for the next stop and return the line that is shown then, less one: the place."
  (steps-wait (lambda () (and steps-stopped steps-shown)))
  (set-buffer (window-buffer))
  (1- (line-number-at-pos)))

(defun steps-move (command)
  "Go on or back by COMMAND, and return the place."
  (setq steps-stopped nil steps-shown nil)
  (cond ((equal command "stepIn") (dap-step-in (dap--cur-session-or-die)))
        ((equal command "continue") (dap-continue (dap--cur-session-or-die) (dap--debug-session-thread-id (dap--cur-session-or-die))))
        (t (dap--step command (dap--cur-session-or-die))))
  (steps-place))

(defun steps-is-at (end)
  "Whether the latest stop is at END, the start or the end."
  (string-match-p (concat "at the " end) (gethash "description" steps-stopped "")))

(defun steps-walk (word command end)
  "Go by COMMAND to END, and print WORD with each place."
  (let (places)
    (while (not (and places (steps-is-at end)))
      (push (steps-move command) places))
    (princ (format "%s: %s\n" word (mapconcat #'number-to-string (nreverse places) " ")))))

(defun steps-both-ways (kind)
  "Run to the end and back to the start, and print where it stops, which is at breakpoints of KIND."
  (dolist (way '(("end" . "continue") ("start" . "reverseContinue")))
    (princ (format "%s to the %s:" kind (car way)))
    (let ((place (steps-move (cdr way))))
      (while (not (steps-is-at (car way)))
        (princ (format " %d (%s)" place (gethash "reason" steps-stopped)))
        (setq place (steps-move (cdr way)))))
    (princ "\n")))

(defun steps-set (kind breakpoints &optional name)
  "Set BREAKPOINTS of KIND, hit them both ways and take them away.  They are called NAME, or KIND where there is none."
  (let ((command (format "set%sBreakpoints" (capitalize kind))))
    (steps-ask command (list :breakpoints (vector breakpoints)))
    (steps-both-ways (or name kind))
    (steps-ask command (list :breakpoints []))))

(defun steps-lines (line condition)
  "Set a breakpoint on LINE as a user does, then one with CONDITION."
  (dolist (kind '("line" "condition"))
    (goto-char (point-min))
    (forward-line (1- line))
    (dap-breakpoint-add)
    (when (equal kind "condition")
      (cl-letf (((symbol-function 'read-string) (lambda (&rest _) condition)))
        (call-interactively #'dap-breakpoint-condition)))
    (steps-both-ways kind)
    (dap-breakpoint-delete-all)))

(defun steps-code (line)
  "Set a breakpoint on LINE of the Python code, as a user does."
  (find-file (gethash "path" (elt (gethash "sources" (steps-ask "loadedSources" nil)) 1)))
  (goto-char (point-min))
  (forward-line (1- line))
  (dap-breakpoint-add)
  (steps-both-ways "code")
  (dap-breakpoint-delete-all))

(defun steps-data (kind name)
  "Set a breakpoint on the first of the data that the scope NAME has at the end.  It is of this KIND."
  (steps-move "continue")
  (let* ((scopes (gethash "scopes" (steps-ask "scopes" '(:frameId 1))))
         (found (seq-find (lambda (scope) (equal (gethash "name" scope) name)) scopes))
         (rows (gethash "variables" (steps-ask "variables" (list :variablesReference (gethash "variablesReference" found)))))
         (datum (steps-ask "dataBreakpointInfo" (list :variablesReference (gethash "variablesReference" found)
                                                      :name (gethash "name" (elt rows 0))))))
    (steps-move "reverseContinue")
    (steps-set "data" (list :dataId (gethash "dataId" datum) :accessType "write") kind)))

(defun steps-edit (edit path)
  "Make EDIT at the prompt, and save to PATH."
  (dolist (line (list edit (format "save '%s'" path)))
    (princ (format "said: %s\n" (gethash "result" (steps-ask "evaluate" (list :expression line :context "repl")))))))

(defun steps-main (program path line condition pattern offset code edit &rest adapter)
  "Do all of it with ADAPTER and PROGRAM; the rest is as the page of this file says: PATH, LINE, CONDITION, PATTERN, OFFSET, CODE and EDIT."
  (advice-add 'dap--on-event :before
              (lambda (_ event) (when (equal (gethash "event" event) "stopped") (setq steps-stopped (gethash "body" event)))))
  (advice-add 'dap--go-to-stack-frame :after (lambda (&rest _) (setq steps-shown t)))
  (dap-register-debug-provider "pickle" (lambda (conf) (plist-put conf :dap-server-path adapter) conf))
  (dap-debug (list :type "pickle" :request "launch" :name "Pickle" :program program :files t))
  (princ (format "entry: %d\n" (steps-place)))
  (steps-walk "forwards" "stepIn" "end")
  (steps-walk "back" "stepBack" "start")
  (steps-lines (string-to-number line) condition)
  (steps-code (string-to-number code))
  (steps-set "function" (list :name pattern))
  (steps-set "instruction" (list :instructionReference offset))
  (steps-ask "setExceptionBreakpoints" '(:filters ["call"]))
  (steps-both-ways "call")
  (steps-ask "setExceptionBreakpoints" '(:filters []))
  (steps-data "data" "Memo")
  (steps-data "change" "Result")
  (steps-edit edit path)
  (dap-disconnect (dap--cur-session-or-die))
  (let ((process (dap--debug-session-proc (dap--cur-session))))
    (steps-wait (lambda () (not (process-live-p process))))
    (princ (format "ended: %d\n" (process-exit-status process)))))

(apply #'steps-main steps-given)
;;; steps.el ends here
