// Browsers load the page's other scripts from a server alone. A page that was opened as a file says so.
if (location.protocol === "file:")
    document.getElementById("module").textContent = "This page was opened as a file, and a browser loads its scripts from a server "
        + "alone. Run python3 -m http.server in its folder, and open the address that it prints.";
