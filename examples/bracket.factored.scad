// bcsg 2 contour
// box -1 -1 61 41
union() {
  difference() {
    intersection() {
      translate([-8132,-8192,0]) square([8192,16384]);
      union() {
        difference() {
          intersection() {
            translate([-1,-1,0]) square([62,42]);
            translate([-8192,0,0]) square([16384,8192]);
          }
          translate([-8192,-8152,0]) square([8192,16384]);
          translate([-8172,8,0]) square([16384,8192]);
        }
        difference() {
          intersection() {
            translate([-1,-1,0]) square([62,42]);
            translate([-8172,8,0]) square([16384,8192]);
          }
          multmatrix([[8,5,0,60],[-5,8,0,15],[0,0,1,0],[0,0,0,1]]) translate([-8192,0,0]) square([16384,8192]);
          translate([-8172,-8168,0]) square([8192,16384]);
        }
      }
    }
  }
  difference() {
    intersection() {
      union() {
        difference() {
          intersection() {
            translate([-1,-1,0]) square([62,42]);
            translate([-8184,24,0]) square([16384,8192]);
            translate([-8172,-8168,0]) square([8192,16384]);
          }
          translate([-8184,-8184,0]) square([8192,16384]);
        }
        difference() {
          intersection() {
            translate([-1,-1,0]) square([62,42]);
            translate([-8184,-8184,0]) square([8192,16384]);
            translate([-8172,8,0]) square([16384,8192]);
          }
          translate([-8192,-8152,0]) square([8192,16384]);
        }
      }
    }
    translate([-8172,40,0]) square([16384,8192]);
  }
}
