;;; client.el --- Emacs' dap-mode as a client of the debug adapter  -*- lexical-binding: t -*-

;; emacs --batch -l client.el PYTHON SCRIPT
;;
;; It sets a breakpoint at line 18 of SCRIPT, goes there, steps, steps back, and looks around. Each line that it prints says
;; what it asked for, and where the run then stands.

(setq debian-emacs-flavor 'emacs)
(require 'package)
(package-activate-all)
(require 'dap-mode)
(defvar dap-exception-breakpoints nil)  ; (dap-mode 0.7 declares it and never sets it)
(setq dap-auto-configure-features nil dap-print-io nil dap-breakpoints-file (make-temp-file "breakpoints")
      lsp-session-file (make-temp-file "session"))

(defvar bunjelav-stops 0)
(defvar bunjelav-script (cadr command-line-args-left))
(add-hook 'dap-stopped-hook (lambda (_) (setq bunjelav-stops (1+ bunjelav-stops))))

(defun bunjelav-wait (is-so)
  "Waits until IS-SO gives something, for a minute."
  (let ((ends (+ (float-time) 60)))
    (while (and (not (funcall is-so)) (< (float-time) ends))
      (accept-process-output nil 0.02))
    (unless (funcall is-so) (error "It did not come"))))

(defun bunjelav-session () (dap--cur-session))

(defun bunjelav-asked (command &optional given)
  "The response to a request."
  (let (response)
    (dap--send-message (dap--make-request command given) (lambda (it) (setq response it)) (bunjelav-session))
    (bunjelav-wait (lambda () response))
    (unless (gethash "success" response) (error "%s: %s" command (gethash "message" response)))
    (gethash "body" response)))

(defun bunjelav-go (command)
  "A request of which dap-mode has no command: it lets the run go, as its commands do."
  (dap--resume-application (bunjelav-session))
  (bunjelav-asked command (list :threadId 1)))

(defun bunjelav-tell (what)
  (let ((frame (car (append (gethash "stackFrames" (bunjelav-asked "stackTrace" (list :threadId 1))) nil))))
    (princ (format "%s: %s\n" what (gethash "name" frame)))))

(defun bunjelav-step (what act)
  "Does it, waits until the run stops, and tells where."
  (let ((before bunjelav-stops))
    (funcall act)
    (bunjelav-wait (lambda () (> bunjelav-stops before)))
    (bunjelav-tell what)))

(dap-register-debug-provider "bunjelav" #'identity)

(let ((buffer (find-file-noselect bunjelav-script)))
  (with-current-buffer buffer
    (goto-char (point-min))
    (forward-line 17)
    (dap-breakpoint-add))
  (bunjelav-step "launch" (lambda ()
    (dap-start-debugging-noexpand
     (list :name "run" :type "bunjelav" :request "launch" :program bunjelav-script :stopOnEntry t
           :dap-server-path (list (car command-line-args-left) "-m" "bunjelav.dap")))))
  (bunjelav-step "continue" (lambda () (dap-continue (bunjelav-session) 1)))
  (bunjelav-step "next" (lambda () (dap-next (bunjelav-session))))
  (bunjelav-step "stepIn" (lambda () (dap-step-in (bunjelav-session))))
  (bunjelav-step "stepBack" (lambda () (bunjelav-go "stepBack")))
  (bunjelav-step "reverseContinue" (lambda () (bunjelav-go "reverseContinue")))
  (princ (format "evaluate: %s\n" (gethash "result" (bunjelav-asked "evaluate" (list :expression "look RCTL")))))
  (princ (format "scopes: %s\n" (mapconcat (lambda (it) (gethash "name" it))
                                           (gethash "scopes" (bunjelav-asked "scopes" (list :frameId 2))) ", ")))
  (bunjelav-asked "disconnect")
  (princ "disconnected\n"))

;;; client.el ends here
